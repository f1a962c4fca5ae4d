//! The tables of moves: those that are left, and all that were lodged.

use super::escape::{Grouped, Name};
use super::facts::{blocks, change};
use super::table::{cell, head, row, row_of, Table, POSITION};
use super::Contents;
use crate::answer::{self, Outcome};
use crate::task::{Action, Task};

/// What the words of the outcomes mean, in the style of the rows that have them.
const LEGEND: &str = "<dl class=\"legend\">
<div><dt>kept</dt><dd>It stays in the shortened list.</dd></div>
<div><dt><strong>marked</strong></dt>
<dd>It stays, and no valid striking of the lodged list drops it.</dd></div>
<div><dt><s>struck</s></dt><dd>The list does without it.</dd></div>
</dl>
<p>What a move does is told for the lodged list, in which all moves are made.</p>
";

/// A lodged move.
struct Move<'a> {
    /// Its place in the lodged list, from 1.
    position: usize,
    action: &'a Action,
    /// What the library tells of it.
    told: &'a answer::Move,
    /// The state that the lodged list has reached before it.
    before: &'a [u32],
}

impl Move<'_> {
    fn price(&self) -> Grouped {
        Grouped(self.told.price.into())
    }
}

fn moves<'a>(contents: &'a Contents) -> impl Iterator<Item = Move<'a>> {
    let lodged = contents.list.iter().zip(&contents.shortened.moves);
    let steps = lodged.zip(&contents.course.lodged).enumerate();
    steps.map(|(index, ((&number, told), before))| Move {
        position: index + 1,
        action: &contents.task.actions[number as usize],
        told,
        before,
    })
}

/// The shortened list. Its positions are the lodged ones, so that both lists can be laid side by
/// side.
pub fn left(contents: &Contents) -> String {
    let kept = moves(contents).filter(|step| !step.told.is_struck());
    let tally = contents.shortened.left;
    let table = Table {
        attributes: r#"class="left""#,
        columns: &[POSITION, "Move", "Price", "Total"],
        rows: kept.map(|step| left_row(&step)).collect(),
        sums: row(&[
            cell(""),
            head(tally.so_many()),
            cell(""),
            cell(Grouped(tally.price.into())),
        ]),
    };
    format!(
        "<section>\n<h2>The shortened list</h2>\n\
         <p>Positions are those of the lodged list.</p>\n{}</section>\n",
        table.html()
    )
}

/// Behind the price stands what the list left has come to with this move.
fn left_row(step: &Move) -> String {
    row(&[
        cell(step.position),
        head(Name(&step.action.name)),
        cell(step.price()),
        cell(Grouped(step.told.left.price.into())),
    ])
}

/// Every lodged move, with what became of it. The table tells its number of rows, so that a test
/// can count them.
pub fn lodged(contents: &Contents) -> String {
    let tally = contents.shortened.lodged;
    let price = cell(Grouped(tally.price.into()));
    let table = Table {
        attributes: &format!(
            r#"class="lodged stack" data-moves="{}""#,
            contents.list.len()
        ),
        columns: &[POSITION, "Move", "Price", "What it does", "Outcome"],
        rows: moves(contents)
            .map(|step| lodged_row(contents.task, &step))
            .collect(),
        sums: row(&[cell(""), head(tally.so_many()), price, cell(""), cell("")]),
    };
    format!(
        "<section>\n<h2>Every lodged move</h2>\n{LEGEND}{}</section>\n",
        table.html()
    )
}

/// A struck name has a line through it, so that it is told apart without colour too.
fn lodged_row(task: &Task, step: &Move) -> String {
    let name = Name(&step.action.name);
    let changes = step
        .action
        .effects
        .iter()
        .map(|&effect| change(task, effect, step.before));
    let cells = [
        cell(step.position),
        match step.told.outcome {
            Outcome::Struck => head(format_args!("<s>{name}</s>")),
            Outcome::Kept | Outcome::Marked => head(name),
        },
        cell(step.price()),
        cell(blocks(changes)),
        cell(step.told.outcome),
    ];
    row_of(step.told.outcome, &cells)
}

#[cfg(test)]
mod tests {
    use super::super::sample::Sample;
    use super::*;

    const NO_ROWS: &str = "<tbody>\n</tbody>";

    /// The lodged row at a position.
    fn row_at(table: &str, position: usize) -> &str {
        let start = format!("\"><td>{position}</td>");
        table
            .lines()
            .find(|line| line.contains(&start))
            .unwrap_or_default()
    }

    #[test]
    fn each_lodged_move_has_a_row() {
        let table = lodged(&Sample::new().contents());
        assert!(table.contains(r#"data-moves="4""#));
        assert_eq!(table.matches("<tr class=").count(), 4);
    }

    #[test]
    fn the_outcome_is_told_in_words_and_by_a_line() {
        let table = lodged(&Sample::new().contents());
        let struck = row_at(&table, 1);
        assert!(struck.starts_with(r#"<tr class="struck">"#));
        assert!(struck.contains("<s><bdi>lift</bdi></s>"));
        assert!(struck.ends_with("<td>struck</td></tr>"));
        assert!(row_at(&table, 3).ends_with("<td>marked</td></tr>"));
        let kept = row_at(&table, 4);
        assert!(kept.ends_with("<td>kept</td></tr>"));
        assert!(!kept.contains("<s>"));
    }

    #[test]
    fn what_each_move_does_is_told() {
        let table = lodged(&Sample::new().contents());
        assert!(row_at(&table, 1).contains("<bdi>shut</bdi> → <bdi>open</bdi>"));
        assert!(row_at(&table, 3).contains("<div><bdi>lamp</bdi>: stays <bdi>off</bdi></div>"));
        assert!(row_at(&table, 4).contains("<td>nothing</td>"));
    }

    #[test]
    fn the_shortened_list_adds_up() {
        let table = left(&Sample::new().contents());
        assert!(table.contains("<bdi>lift &amp; dim</bdi></th><td>1,000</td><td>1,000</td>"));
        assert!(table.contains("<bdi>look</bdi></th><td>2</td><td>1,002</td>"));
        assert!(!table.contains("<bdi>drop</bdi>"));
        assert!(table.contains("2 moves"));
    }

    #[test]
    fn an_empty_list_has_no_rows() {
        let sample = Sample::empty();
        assert!(left(&sample.contents()).contains(NO_ROWS));
        assert!(lodged(&sample.contents()).contains(NO_ROWS));
    }

    #[test]
    fn a_nasty_name_is_escaped_in_both_tables() {
        let mut sample = Sample::new();
        sample.rename_all("\"<b>'");
        for table in [left(&sample.contents()), lodged(&sample.contents())] {
            assert!(table.contains("<bdi>&quot;&lt;b&gt;&#39;</bdi>"));
            assert!(!table.contains("<b>"));
        }
    }
}
