//! Compares the services: the library and the ways that are like its own against the rules, and the
//! rules against the answers that are due.

use super::record::Record;
use super::report;
use crate::cases::{damaged, kinds, worked, Answer, Case, Memory, Service};
use crate::cases::{CLAIM, CLAIM_AT};
use std::ops::RangeInclusive;

const WORKED: &str = "documents: worked lists, texts and limits";
const DAMAGED: &str = "translator: small texts damaged everywhere";

/// Tries the cases that are the same in each run, on the rules alone or on the library too.
pub fn try_fixed(record: &mut Record, with_library: bool) {
    let worked = worked::cases().into_iter();
    let worked = worked.map(|(name, case)| (WORKED, name.to_string(), case));
    let damaged = damaged::cases().map(|(name, case)| (DAMAGED, name, case));
    for (kind, name, case) in worked.chain(damaged) {
        if record.is_over() {
            break;
        }
        let title = || format!("{kind}: {name}");
        try_case(record, kind, &case, with_library, title);
    }
}

pub fn try_random(record: &mut Record, seed: u64, numbers: RangeInclusive<u64>) {
    let kinds = kinds::all();
    for number in numbers {
        if record.is_over() {
            break;
        }
        let (kind, case) = kinds::numbered(&kinds, seed, number);
        let title = || format!("{kind}\n# replay: compare/run --seed {seed} --case {number}");
        try_case(record, kind, &case, true, title);
    }
}

/// The rules answer, and where there is a way like the library's it answers too.
fn try_case(
    record: &mut Record,
    kind: &'static str,
    case: &Case,
    with_library: bool,
    title: impl Fn() -> String,
) {
    let Case { call, lent, .. } = case;
    let others = [
        ("library", with_library.then(|| by_library(case))),
        ("faster way", call.by_faster(lent).map(|it| lent.after(&it))),
    ];
    compare(record, kind, case, call.by_rules(lent), &others, title);
}

/// The library against an answer that stands for that of the rules.
pub fn try_answer(
    record: &mut Record,
    kind: &'static str,
    case: &Case,
    answer: Answer,
    title: impl Fn() -> String,
) {
    let others = [("library", Some(by_library(case)))];
    compare(record, kind, case, answer, &others, title);
}

fn by_library(case: &Case) -> Memory {
    let mut memory = case.lent.clone();
    case.call.by_library(&mut memory);
    memory
}

fn compare(
    record: &mut Record,
    kind: &'static str,
    case: &Case,
    answer: Answer,
    others: &[(&str, Option<Memory>)],
    title: impl Fn() -> String,
) {
    let Case { lent, due, .. } = case;
    let by_rules = lent.after(&answer);
    count(record, kind, case, &answer);
    let as_due = due.as_ref().is_none_or(|due| lent.after(due) == by_rules);
    let alike = |(_, other): &(_, Option<_>)| other.as_ref().is_none_or(|it| *it == by_rules);
    if !(as_due && others.iter().all(alike)) {
        record.differ(&title());
        report::print_difference(case, &by_rules, others);
    }
}

fn count(record: &mut Record, kind: &'static str, case: &Case, answer: &Answer) {
    let service = case.call.service;
    record.count(kind, service.name(), answer.number);
    if let [number, place, ..] = answer.out[..] {
        record.note_place(service.name(), number, place);
    }
    if service == Service::License && answer.number == 0 {
        record.note_answer(CLAIM, answer.out[CLAIM_AT]);
    }
}
