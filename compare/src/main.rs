//! Compares the library of services with an independent version of document 01's rules, and of
//! document 02's for marks and for the texts of a translator, on seeded random cases, on long lists,
//! on the documents' own worked lists and on texts that are damaged everywhere. A case compares the
//! answer and every word of memory that is lent. What the built programs write is compared byte for
//! byte.
//!
//! - `rules`: the services by the documents, and the passes and the search that the library is timed
//!   against;
//! - `makers`: tasks, sheets, faults of sheets, plans and texts, from a seeded generator;
//! - `cases`: the services, each declared in one place, and what is called with what, in kinds of
//!   random cases and in the worked lists;
//! - `comparison`: the library, the programs and the rules against each other, and its own test;
//! - `bench`: times, instructions and stack;
//! - `hunt`: a search for lists that the exact reduction is slow on;
//! - `records`: sheets with lists for the tests of others.

mod bench;
mod cases;
mod comparison;
mod hunt;
mod makers;
mod options;
mod records;
mod rules;

use comparison::inputs::Form;
use comparison::programs::reading;
use comparison::self_test;
use options::{Mode, Options};
use std::process::ExitCode;

fn main() -> ExitCode {
    match Options::parse(std::env::args().skip(1)) {
        Ok(options) if run(&options) => ExitCode::SUCCESS,
        Ok(_) => ExitCode::FAILURE,
        Err(message) => {
            eprintln!("{message}");
            ExitCode::from(2)
        }
    }
}

/// Answers whether nothing failed.
fn run(Options { mode, seed, built }: &Options) -> bool {
    let of_records = &reading(Form::Record, built);
    match *mode {
        Mode::All(cases) => self_test::run(*seed) && comparison::all(built, *seed, cases),
        Mode::Long(seconds) => comparison::long(built, *seed, seconds),
        Mode::One(case) => comparison::one(*seed, case),
        Mode::SelfTest => self_test::run(*seed) && comparison::fixed(),
        Mode::Bench => bench::run(built),
        Mode::Instructions => bench::count_instructions(),
        Mode::Stack => bench::measure_stack(of_records),
        Mode::Hunt(seconds) => hunt::run(of_records, *seed, seconds),
        Mode::Records(count) => records::write(*seed, count),
        Mode::Once(side, measured) => bench::once(side, measured),
    }
}
