//! Makers of what cases are about: tasks with their sheets, the faults of sheets, and plans, all
//! from a seeded generator.

pub mod answered;
pub mod cycles;
pub mod dense;
pub mod families;
pub mod faults;
pub mod jobs;
mod list;
mod parts;
mod random;
pub mod restores;
mod sheet;
mod task;
pub mod translator;
mod walk;

pub use list::{Known, List};
pub use parts::chain;
pub use random::Random;
pub use sheet::{length_word, Sheet};
pub use task::{action, fact, fit, set, Action, Fact, Task};
pub use walk::{random_step, unknown_action, Walk};
