//! The box at the top: what was lodged, what is kept, what is saved, and whether it may be lodged.

use super::escape::{Grouped, Text};
use super::table::{cell, head, row, Table};
use super::Contents;
use crate::answer::{Claim, Tally, Way};

/// The summary, with the sentence of what was proved.
pub fn section(contents: &Contents) -> String {
    let (lodged, left) = (contents.shortened.lodged, contents.shortened.left);
    let table = Table {
        attributes: "",
        columns: &["Tally", "Price", "Moves"],
        rows: [
            tally_row("Lodged", lodged),
            tally_row("Kept", left),
            tally_row("Saved", contents.shortened.saved),
        ]
        .concat(),
        sums: String::new(),
    };
    format!(
        "<section class=\"summary\">\n<h2>Summary</h2>\n{}<div>\n\
         <p>May the shortened list be lodged? <strong>{}</strong></p>\n<p>{}</p>\n\
         </div>\n</section>\n",
        table.html(),
        answer(contents.shortened.way),
        Text(contents.claim)
    )
}

fn tally_row(what: &str, tally: Tally) -> String {
    let numbers = [tally.price, tally.moves].map(|number| cell(Grouped(number.into())));
    row(&[head(what), numbers.concat()])
}

/// The licence answers the office's question. The other ways of striking do not, whatever they
/// leave.
fn answer(way: Way) -> &'static str {
    match way {
        Way::Licence(Claim::Least | Claim::Irreducible) => "Yes.",
        Way::Licence(Claim::Open(_)) => "That is not known.",
        Way::Exact | Way::Greedy | Way::Eliminate | Way::Cheaper => {
            "This way of striking makes no such claim."
        }
    }
}

#[cfg(test)]
mod tests {
    use super::super::sample::Sample;
    use super::*;

    fn section_of(way: Way) -> String {
        let mut sample = Sample::new();
        sample.shortened.way = way;
        section(&sample.contents())
    }

    #[test]
    fn prices_and_moves_are_told() {
        let section = section(&Sample::new().contents());
        for row in [
            "Lodged</th><td>1,012</td><td>4</td>",
            "Kept</th><td>1,002</td><td>2</td>",
            "Saved</th><td>10</td><td>2</td>",
        ] {
            assert!(section.contains(row), "{row}");
        }
    }

    #[test]
    fn each_way_has_its_answer() {
        assert!(section_of(Way::Licence(Claim::Least)).contains("Yes."));
        assert!(section_of(Way::Licence(Claim::Irreducible)).contains("Yes."));
        assert!(section_of(Way::Licence(Claim::Open(21))).contains("not known"));
        for way in [Way::Exact, Way::Greedy, Way::Eliminate, Way::Cheaper] {
            assert!(section_of(way).contains("no such claim"));
        }
    }
}
