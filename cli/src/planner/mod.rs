//! What planners write: the names in a translator's text, and plan files.

mod names;
mod plan;

pub use names::{names, Names};
pub use plan::{read_plan, write_plan, Move};
