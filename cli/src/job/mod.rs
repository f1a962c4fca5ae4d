//! The job with names: a text that a person writes. docs/JOB.md has its rules.
//!
//! - `tokens`: the words and signs of a line; `lines`: headers and items, as they stand in the text;
//! - `parts`: which header is what; `facts`: names and facts in items;
//! - `reader`: the task and the list that all this means;
//! - `writer`: a job as such a text.

mod facts;
mod lines;
mod parts;
mod reader;
mod tokens;
mod writer;

pub use reader::{read, Lines};
pub use writer::write;

use crate::task::Task;

/// A task and a list of its actions.
#[derive(Clone, Debug, Default, PartialEq)]
pub struct Job {
    pub title: Option<String>,
    pub task: Task,
    pub list: Vec<u32>,
}

/// Stands between a variable and its value.
const IS: &str = "is";
/// Stands in front of an action's price.
const PRICE: &str = "price";
/// Stands for no fact and no move.
const NOTHING: &str = "nothing";
