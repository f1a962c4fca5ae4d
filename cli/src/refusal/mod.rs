//! What a refusal means, in words: each cause of document 01's table as a sentence with names in
//! it.
//!
//! - `sheets`: causes 1 to 7; `lists`: 8 to 12; `texts`: 13 to 15.

mod lists;
mod sheets;
mod texts;

pub use lists::of_list;
pub use sheets::of_form;
pub use texts::of_planner;

use crate::failure::Failure;
use crate::input::{Lodged, Part, Spot};
use crate::reply::{Refusal, Unknown};
use crate::sheet;

/// What was refused is told by the names that it has; where it has none, by its numbers.
impl Lodged {
    fn variable(&self, v: usize) -> String {
        let named = self.job.task.variables.get(v);
        quoted(named.map_or_else(|| sheet::variable_name(v), |it| it.name.clone()))
    }

    fn action(&self, a: usize) -> String {
        let named = self.job.task.actions.get(a);
        quoted(named.map_or_else(|| sheet::action_name(a), |it| it.name.clone()))
    }

    /// A message that begins with file and line.
    fn at(&self, part: Part, word: usize, message: &str) -> String {
        format!("{}: {message}", self.origin.at(Spot { part, word }))
    }
}

/// A refusal that no table has: its number is not told here, or there is no such place.
fn out_of_table(Refusal { number, place }: Refusal) -> Failure {
    let what = "a refusal whose number or place there is not";
    let words = vec![number, place];
    Unknown { what, words }.into()
}

/// A name as messages have it, with what a terminal should not see made visible.
fn quoted(name: String) -> String {
    format!("{name:?}")
}
