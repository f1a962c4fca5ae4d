//! The faults of a sheet, one for every cause that a row of document 01's table names. Each one
//! says what it is to be refused for, so that the independent version is itself held to the way a
//! sheet was spoilt.

mod pairs;

use super::{length_word, Random, Sheet};
use crate::rules::{Cause, ACTIONS_WORD, COUNT_WORD, EDITION, EDITION_WORD, FACT_BASE};
use crate::rules::{FIRST_ACTION_PAIR, HEADER, START_PAIR, VARIABLES_WORD};
use crate::rules::{MAX_ACTIONS, MAX_ACTION_COST, MAX_DOMAIN, MAX_VARIABLES, MAX_WORDS};

/// Spoils a sheet and answers with the place of the refusal, or with nothing if the sheet has no
/// spot for the fault. The refusal is right when no other fault was put before; one may have been,
/// and then words may be cut off and parts empty.
type Put = fn(&mut Sheet, &mut Random) -> Option<usize>;

/// What a fault is refused for, and what puts it.
pub type Fault = (Cause, Put);

/// The faults with their names, in the order of the table.
pub fn all() -> Vec<(&'static str, Fault)> {
    let by_cause = [
        (Cause::Length, LENGTH),
        (Cause::Edition, OF_EDITION),
        (Cause::Range, RANGE),
        (Cause::Pair, pairs::FAULTS),
        (Cause::Value, VALUES),
        (Cause::Fact, FACTS),
        (Cause::Cost, COSTS),
    ];
    let faults = |(cause, faults): (Cause, &'static [(&'static str, Put)])| {
        faults.iter().map(move |&(name, put)| (name, (cause, put)))
    };
    by_cause.into_iter().flat_map(faults).collect()
}

const LENGTH: &[(&str, Put)] = &[
    ("sheet: under 4 words", |sheet, random| {
        sheet.words.truncate(random.index(HEADER));
        Some(0)
    }),
    // The last part runs to the new end, so that nothing but the length is at fault before the facts
    // are read.
    ("sheet: over 8,192 words", |sheet, random| {
        let beyond = match random.index(4) {
            0 => random.size(1..=MAX_WORDS),
            _ => 1,
        };
        sheet.words.resize(MAX_WORDS + beyond, 0);
        let last = sheet.last_pair();
        let length = sheet.words.len() - sheet.parts[last].start;
        sheet.set_count();
        sheet.spoil(length_word(last), length as u32, 0)
    }),
    ("sheet: N wrong", |sheet, random| {
        let count = other_word(random, sheet.words.len() as u32);
        sheet.spoil(COUNT_WORD, count, 0)
    }),
    ("sheet: words missing or left over", |sheet, random| {
        let length = sheet.words.len();
        (length > HEADER).then_some(())?;
        let shorter = random.size(HEADER..=length - 1);
        match random.index(2) {
            0 => sheet.words.push(random.word()),
            _ => {
                let kept = random.pick(&[HEADER, shorter, length - 1]);
                sheet.words.truncate(kept);
            }
        }
        Some(0)
    }),
];

const OF_EDITION: &[(&str, Put)] = &[("sheet: edition", |sheet, random| {
    let edition = other_word(random, EDITION as u32);
    sheet.spoil(EDITION_WORD, edition, 0)
})];

const RANGE: &[(&str, Put)] = &[
    ("sheet: V beyond its range", |sheet, random| {
        let variables = zero_or_above(random, MAX_VARIABLES);
        sheet.spoil(VARIABLES_WORD, variables, 0)
    }),
    ("sheet: A beyond its range", |sheet, random| {
        let actions = word_above(random, MAX_ACTIONS);
        sheet.spoil(ACTIONS_WORD, actions, 0)
    }),
];

const VALUES: &[(&str, Put)] = &[
    ("sheet: domain size", |sheet, random| {
        let variable = random.index(sheet.variables().max(1));
        let size = zero_or_above(random, MAX_DOMAIN);
        sheet.spoil(sheet.size_word(variable), size, variable)
    }),
    ("sheet: starting value", |sheet, random| {
        let variable = random.index(sheet.variables().max(1));
        let greatest = sheet.get(sheet.size_word(variable)).saturating_sub(1);
        let value = word_above(random, greatest as usize);
        sheet.spoil(sheet.parts[START_PAIR].start + variable, value, variable)
    }),
];

const FACTS: &[(&str, Put)] = &[
    ("sheet: unknown variable", |sheet, random| {
        let index = sheet.random_fact(random, 0)?;
        let first = sheet.variables() * FACT_BASE;
        let value = random.index(FACT_BASE);
        let fact = match random.index(2) {
            0 => first + value,
            _ => random.size(first..=u32::MAX as usize),
        };
        sheet.spoil(index, fact as u32, index)
    }),
    ("sheet: unknown value", |sheet, random| {
        let index = sheet.random_fact(random, 0)?;
        let base = FACT_BASE as u32;
        let size = sheet.domain_of_fact(index);
        (size < base).then_some(())?;
        let greatest = random.pick(&[size, base - 1]);
        let value = random.within(size..=greatest);
        let fact = sheet.get(index) / base * base + value;
        sheet.spoil(index, fact, index)
    }),
    ("sheet: variable twice", |sheet, random| {
        let index = sheet.random_fact(random, 1)?;
        let base = FACT_BASE as u32;
        let before = sheet.get(index - 1);
        let size = sheet.domain_of_fact(index - 1).clamp(1, base);
        let other = before / base * base + random.within(0..=size - 1);
        let fact = random.pick(&[before, other]);
        sheet.spoil(index, fact, index)
    }),
    ("sheet: variables falling", |sheet, random| {
        let index = sheet.random_fact(random, 1)?;
        let (before, fact) = (sheet.get(index - 1), sheet.get(index));
        sheet.set(index - 1, fact);
        sheet.spoil(index, before, index)
    }),
];

const COSTS: &[(&str, Put)] = &[("sheet: cost", |sheet, random| {
    let pair = sheet.random_action(random)?;
    let cost = word_above(random, MAX_ACTION_COST);
    sheet.spoil(sheet.parts[pair].start, cost, pair - FIRST_ACTION_PAIR)
})];

/// Any word but `word`, half of the time one beside it.
fn other_word(random: &mut Random, word: u32) -> u32 {
    let other = match random.index(4) {
        0 => word.wrapping_add(1),
        1 => word.wrapping_sub(1),
        _ => random.word(),
    };
    if other == word {
        !word
    } else {
        other
    }
}

/// A word above `limit`, half of the time the next one.
fn word_above(random: &mut Random, limit: usize) -> u32 {
    let next = limit as u32 + 1;
    match random.index(4) {
        0 => u32::MAX,
        1 => random.within(next..=u32::MAX),
        _ => next,
    }
}

/// Zero, or a word above `limit`.
fn zero_or_above(random: &mut Random, limit: usize) -> u32 {
    match random.index(2) {
        0 => 0,
        _ => word_above(random, limit),
    }
}
