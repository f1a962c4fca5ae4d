//! Measures of the library against Rust versions, both in one run on the same input. What is printed
//! is the tables of docs/PERFORMANCE.md, in Markdown.

mod orders;
mod outside;
mod plans;
mod table;
mod texts;
mod timed;
mod times;

pub use outside::{count_instructions, measure_stack};
pub use plans::{name, HardPlan, LENGTHS};
pub use table::MOST_TIME;
pub use texts::{LongText, BULKS, SIZES};
pub use timed::{best_time_of, Timed};
pub use times::run;

use crate::cases::{Call, Case, Memory, Service};

/// What is measured: the library, or the Rust version of the same rules.
#[derive(Clone, Copy, Debug)]
pub enum Side {
    Library,
    Rust,
}

pub const SIDES: [Side; 2] = [Side::Library, Side::Rust];

impl Side {
    /// The Rust version goes the way that is like the library's, where there is one: the rules go
    /// other ways.
    fn answer(self, call: Call, memory: &mut Memory) {
        match self {
            Side::Library => call.by_library(memory),
            Side::Rust => {
                let faster = call.by_faster(memory);
                memory.write(&faster.unwrap_or_else(|| call.by_rules(memory)));
            }
        }
    }
}

/// What can be measured from outside.
#[derive(Clone, Copy)]
pub enum Measured {
    Plan(HardPlan),
    Text(LongText),
}

/// What stands in the program's arguments before those of a text.
pub const TEXT: &str = "text";

impl Measured {
    fn case(self) -> Case {
        match self {
            Measured::Plan(plan) => plan.make().fitting(Service::Exact),
            Measured::Text(text) => text.case(),
        }
    }

    /// What tells it to the program.
    fn arguments(self) -> Vec<String> {
        match self {
            Measured::Plan(plan) => plan.arguments().to_vec(),
            Measured::Text(text) => [&[TEXT.to_string()], &text.arguments()[..]].concat(),
        }
    }
}

/// Runs one side one time, for a measure that is taken from outside. Answers whether it had an
/// answer other than a refusal.
pub fn once(side: Side, measured: Measured) -> bool {
    let case = measured.case();
    // A copy, so that the allocator has put what the maker freed in order before the call.
    let mut memory = case.lent.clone();
    side.answer(case.call, &mut memory);
    timed::is_accepted(&memory)
}
