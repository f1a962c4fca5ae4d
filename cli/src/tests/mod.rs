//! Tests of the front end as a whole, on the linked library: what it says of each fault and each
//! cause, and that words come back from a job as they were.

mod commands;
mod faults;
mod forms;
mod refusals;
mod round_trips;
mod shown;
mod times;

use crate::failure::Failure;
use crate::input::{read_files, File, Lodged};
use crate::shorten::Asked;

/// Every way of striking.
const WAYS: [Asked; 5] = [
    Asked::Licence,
    Asked::Exact,
    Asked::Greedy,
    Asked::Eliminate,
    Asked::Cheaper,
];

/// What reading these bytes gives.
fn read(name: &'static str, bytes: &[u8]) -> Result<Lodged, Failure> {
    let bytes = bytes.to_vec();
    read_files(&File { name, bytes }, None)
}

/// The status and what is said where bytes are no job, or their list is not valid.
fn said(name: &'static str, bytes: &[u8]) -> (u8, String) {
    let checked = read(name, bytes).and_then(|it| it.check());
    let failure = checked.expect_err("this is to be refused");
    (failure.status, failure.messages.join("\n"))
}

/// The smallest job of docs/JOB.md.
const SMALL: &str = "\
variable gate: shut, open
start: gate is shut
goal: gate is open
action lift: price 5
  needs: gate is shut
  then: gate is open
list: lift
";

/// The smallest job with one part of its text put in place of another.
fn changed(old: &str, new: &str) -> String {
    assert!(SMALL.contains(old), "{old:?} is not in the smallest job");
    SMALL.replacen(old, new, 1)
}
