//! The services of document 01, with the marks of document 02 and its reading of translator texts,
//! written from their words alone, and the licence, which is put together of them. Checks stand in
//! the order of the table of refusals, and each runs over the whole input before the next.

mod blocks;
mod elimination;
mod exact;
pub mod license;
pub mod marks;
mod moves;
pub mod passes;
mod plan;
mod program;
pub mod search;
mod task;
mod translator;

pub use elimination::{cheaper, cheaper_left, eliminate, greedy, kept_part};
pub use exact::{exact, steps_of};
pub use license::{license, license_by_search, Claim, Licensed};
pub use moves::{moves, Moves, MOVE_WORDS};
pub use plan::{all_hold, course, course_if, do_step, do_step_if, has, holds, mask_of, read};
pub use plan::{step_if, Kept, Lodged, Mask, State, Tally, Test, Values, MASK_WORDS, WORD_BITS};
pub use program::{sheet_and_rest, words_of, Way, Written};
pub use program::{
    written_by_license, written_by_shorten, written_by_translate, written_by_validate,
};
pub use task::{check_sheet, pair_word, parts, sheet_of, Action};
pub use translator::{translate, MAX_TEXT};

pub const EDITION: usize = 1;
pub const MAX_WORDS: usize = 8_192;
pub const MAX_VARIABLES: usize = 64;
pub const MAX_ACTIONS: usize = 1_024;
pub const MAX_DOMAIN: usize = 256;
pub const MAX_ACTION_COST: usize = 1_000_000;
pub const MAX_STEPS: usize = 255;
pub const MAX_TALLY_COST: usize = 255_000_000;
/// The most unmarked steps that the exact reduction takes.
pub const MAX_UNMARKED: usize = 20;

pub const EDITION_WORD: usize = 0;
pub const VARIABLES_WORD: usize = 1;
pub const ACTIONS_WORD: usize = 2;
pub const COUNT_WORD: usize = 3;
/// The words before the pairs.
pub const HEADER: usize = 4;

pub const SIZES_PAIR: usize = 0;
pub const START_PAIR: usize = 1;
pub const GOAL_PAIR: usize = 2;
pub const FIRST_ACTION_PAIR: usize = 3;
/// The words of an action's part before its facts: its cost and the number of its preconditions.
pub const ACTION_HEAD: usize = 2;

/// A fact is variable × 256 + value: every value of the largest domain fits below the variable.
pub const FACT_BASE: usize = MAX_DOMAIN;

/// The variable and the value of a fact.
pub fn split(fact: u32) -> (usize, u32) {
    let base = FACT_BASE as u32;
    ((fact / base) as usize, fact % base)
}

/// The causes of refusal, by their numbers in document 01.
#[derive(Clone, Copy)]
pub enum Cause {
    Length = 1,
    Edition = 2,
    Range = 3,
    Pair = 4,
    Value = 5,
    Fact = 6,
    Cost = 7,
    PlanLength = 8,
    UnknownAction = 9,
    ShortOutput = 10,
    NotValid = 11,
    Unmarked = 12,
    /// These three are document 02's, for a text that is read into a sheet.
    Text = 13,
    Unsupported = 14,
    NoSheet = 15,
}

#[derive(Clone, Copy)]
pub struct Refusal {
    pub cause: Cause,
    pub place: usize,
}

impl Cause {
    pub fn at(self, place: usize) -> Refusal {
        Refusal { cause: self, place }
    }
}

/// Refuses at the first place that has the fault, if there is one.
fn refuse(cause: Cause, first: Option<usize>) -> Result<(), Refusal> {
    first.map_or(Ok(()), |place| Err(cause.at(place)))
}
