//! Tables in Markdown, and how figures are written in them: bold where they miss a goal.

use crate::cases::Service;
use crate::makers::families::Family;
use std::borrow::Borrow;

/// The goal for a service of the library, in the time of the Rust version.
const MOST_RATIO: f64 = 1.5;
/// The goal for the exact reduction, in the time or the instructions of the Rust version.
const MOST_RATIO_OF_EXACT: f64 = 1.25;
/// The goal for a whole program on any list, in microseconds.
pub const MOST_TIME: f64 = 100_000.0;
/// The goal for a whole program on the plan of a family that the cuts are made for.
const MOST_TIME_IF_CUT: f64 = 5_000.0;
/// The goal for the stack.
const MOST_KIB: usize = 256;

pub fn print_head(columns: &[&str]) {
    print_row(columns);
    println!("|{}", "---|".repeat(columns.len()));
}

pub fn print_row<S: Borrow<str>>(cells: &[S]) {
    println!("| {} |", cells.join(" | "));
}

fn bold_unless(meets_goal: bool, figure: String) -> String {
    match meets_goal {
        true => figure,
        false => format!("**{figure}**"),
    }
}

pub fn ratio(service: Service, ratio: f64) -> String {
    let most = match service {
        Service::Exact => MOST_RATIO_OF_EXACT,
        _ => MOST_RATIO,
    };
    bold_unless(ratio <= most, format!("{ratio:.2}"))
}

/// The time of a program on the plan of a family.
pub fn program_time(family: Family, microseconds: f64) -> String {
    let most = match family.defeats_cuts() {
        true => MOST_TIME,
        false => MOST_TIME_IF_CUT,
    };
    time_within(most, microseconds)
}

/// A time with its goal.
pub fn time_within(most: f64, microseconds: f64) -> String {
    bold_unless(microseconds <= most, time(microseconds))
}

pub fn stack(kib: usize) -> String {
    bold_unless(kib < MOST_KIB, kib.to_string())
}

pub fn time(microseconds: f64) -> String {
    match microseconds < 1_000.0 {
        true => format!("{} µs", three_figures(microseconds)),
        false => format!("{} ms", three_figures(microseconds / 1_000.0)),
    }
}

fn three_figures(number: f64) -> String {
    let decimals = match number {
        ..10.0 => 2,
        ..100.0 => 1,
        _ => 0,
    };
    format!("{number:.decimals$}")
}
