//! The ways of striking, each asked of the library.

use crate::answer::{Claim, Shortened, Tally, Way};
use crate::failure::Failure;
use crate::input::Lodged;
use crate::library::{self, Reduction};
use crate::reply::NoAnswer;

/// Which way of striking is asked for.
#[derive(Clone, Copy, Debug, PartialEq)]
pub enum Asked {
    Licence,
    Exact,
    Greedy,
    Eliminate,
    Cheaper,
}

pub fn shorten(lodged: &Lodged, asked: Asked) -> Result<Shortened, Failure> {
    let tally = lodged.check()?;
    shortened(&lodged.sheet, &lodged.job.list, asked, tally).map_err(|it| lodged.unanswered(it))
}

/// A valid list of this tally, shortened.
fn shortened(
    sheet: &[u32],
    list: &[u32],
    asked: Asked,
    lodged: Tally,
) -> Result<Shortened, NoAnswer> {
    let (reduction, way) = answer(sheet, list, asked)?;
    let marks = library::marks(sheet, list)?;
    let (moves, saved) = library::moves(sheet, list, &reduction.mask, &marks)?;
    Ok(Shortened {
        way,
        moves,
        list: reduction.list,
        lodged,
        left: reduction.tally,
        saved,
    })
}

fn answer(sheet: &[u32], list: &[u32], asked: Asked) -> Result<(Reduction, Way), NoAnswer> {
    Ok(match asked {
        Asked::Licence => {
            let (reduction, claim) = library::license(sheet, list)?;
            (reduction, Way::Licence(claim))
        }
        Asked::Exact => (library::exact(sheet, list)?, Way::Exact),
        Asked::Greedy => (library::greedy(sheet, list)?, Way::Greedy),
        Asked::Eliminate => (library::eliminate(sheet, list)?, Way::Eliminate),
        Asked::Cheaper => (library::cheaper(sheet, list)?, Way::Cheaper),
    })
}

/// What must be told of a list left whatever is printed of it: that it is not known whether it may be
/// lodged.
pub fn notice(way: Way) -> Option<String> {
    match way {
        Way::Licence(Claim::Open(unmarked)) => Some(format!(
            "it is not known whether the list left may be lodged: {unmarked} of its moves are unmarked, and one of \
             them could perhaps still be struck"
        )),
        Way::Licence(Claim::Least | Claim::Irreducible) => None,
        Way::Exact | Way::Greedy | Way::Eliminate | Way::Cheaper => None,
    }
}

/// What is proved of the list left, as a sentence or two.
pub fn claim(way: Way) -> String {
    let by_trials = "is valid, and no trial of document 01 strikes more; two moves that must go together may be left";
    match way {
        Way::Licence(Claim::Least) => "Proved: no valid striking of the lodged list leaves a cheaper list, nor one as \
             cheap and shorter, and no move more can be struck from what is left. It may be lodged."
            .to_string(),
        Way::Licence(Claim::Irreducible) => "Proved: no move more can be struck from what is left. It may be lodged. Not \
             proved: that it is the cheapest; another striking of the lodged list may cost less."
            .to_string(),
        Way::Licence(Claim::Open(unmarked)) => format!(
            "Proved: what is left is valid, and costs no more than what either elimination leaves. Not known: whether one \
             of its {unmarked} unmarked moves could still be struck, so whether it may be lodged is open."
        ),
        Way::Exact => "Exact reduction. Proved: no valid striking of the lodged list leaves a cheaper list, nor one as \
             cheap and shorter."
            .to_string(),
        Way::Greedy => format!("Greedy elimination. Proved: what is left {by_trials}."),
        Way::Eliminate => "Elimination. Proved: what is left is valid, and is what document 01's trials leave, move by \
             move; more may be left to strike."
            .to_string(),
        Way::Cheaper => "The cheaper of both eliminations. Proved: what is left is valid, and costs no more than what \
             either leaves; more may be left to strike."
            .to_string(),
    }
}
