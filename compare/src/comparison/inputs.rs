//! Inputs of the programs: those of document 01, cut off and run on, and seeded ones.

use super::report;
use crate::cases::worked::{self, LIST_1, SHEET_P};
use crate::cases::{damaged, kinds, Case, Memory, Service};
use crate::makers::{List, Random};
use crate::rules::{COUNT_WORD, EDITION_WORD, HEADER, MAX_ACTION_COST, MAX_STEPS, MAX_WORDS};

/// What programs read: a sheet with its list, or the text of a translator.
#[derive(Clone, Copy, PartialEq, Eq)]
pub enum Form {
    Record,
    Text,
}

/// The bytes of an input; the pipe of one that stays open is not closed before the answer.
pub struct Input {
    pub name: String,
    pub form: Form,
    pub bytes: Vec<u8>,
    pub stays_open: bool,
}

/// The random cases that are made; those without a plan or a text are passed over.
const RANDOM_CASES: u64 = 1_300;
/// Of the damaged texts every so many is taken.
const DAMAGED_STEP: usize = 61;
/// Bytes too many behind whole input.
const MOST_EXCESS: usize = 8;

/// Those that no seed changes.
pub fn fixed() -> Vec<Input> {
    let mut inputs = cut_off();
    inputs.extend(running_on());
    inputs.extend(of_other_counts());
    inputs.extend(too_long());
    let worked = worked::cases().into_iter();
    inputs.extend(worked.filter_map(|(name, case)| of_case(name, case)));
    let damaged = damaged::cases().step_by(DAMAGED_STEP);
    inputs.extend(damaged.filter_map(|(name, case)| of_case(&name, case)));
    inputs
}

fn bytes_of(words: &[u32]) -> Vec<u8> {
    words.iter().flat_map(|word| word.to_le_bytes()).collect()
}

/// The sheet, the length of the plan and the plan.
pub fn input_bytes(words: &[u32], plan: &[u32]) -> Vec<u8> {
    bytes_of(&report::input_words(words, plan))
}

impl List {
    /// The same of a list.
    pub fn input_bytes(&self) -> Vec<u8> {
        input_bytes(&self.task.words(), &self.plan)
    }
}

/// The input of a case that has a plan or a text.
fn of_case(name: &str, case: Case) -> Option<Input> {
    let Memory {
        words, plan, text, ..
    } = &case.lent;
    let service = case.call.service;
    match service {
        Service::Translate => Some(of_text(name, text.to_vec())),
        _ => service
            .takes_plan()
            .then(|| closed(name, input_bytes(words, plan))),
    }
}

fn input(name: &str, form: Form, bytes: Vec<u8>, stays_open: bool) -> Input {
    let name = name.to_string();
    Input {
        name,
        form,
        bytes,
        stays_open,
    }
}

pub fn closed(name: &str, bytes: Vec<u8>) -> Input {
    input(name, Form::Record, bytes, false)
}

fn open(name: &str, bytes: Vec<u8>) -> Input {
    input(name, Form::Record, bytes, true)
}

pub fn of_text(name: &str, bytes: Vec<u8>) -> Input {
    input(name, Form::Text, bytes, false)
}

/// Sheet P with list 1, whole and at every length below.
fn cut_off() -> Vec<Input> {
    let bytes = input_bytes(&SHEET_P, &LIST_1);
    let front = |length: usize| closed("sheet P, list 1", bytes[..length].to_vec());
    (0..=bytes.len()).map(front).collect()
}

/// One byte too many is enough to tell, so that nothing more is waited for.
fn running_on() -> Vec<Input> {
    let bytes = input_bytes(&SHEET_P, &LIST_1);
    let with_excess = |excess, byte| [&bytes[..], &vec![byte; excess]].concat();
    let mut inputs = vec![open("bytes too many", with_excess(1, 0))];
    for excess in 1..=MOST_EXCESS {
        for byte in [0, u8::MAX] {
            inputs.push(closed("bytes too many", with_excess(excess, byte)));
        }
    }
    inputs
}

/// Word 3 outside its range tells enough by itself; another number of words is told by the end.
fn of_other_counts() -> Vec<Input> {
    let with_count = |count| {
        let mut words = SHEET_P;
        words[COUNT_WORD] = count;
        input_bytes(&words, &LIST_1)
    };
    let (least, most) = (HEADER as u32, MAX_WORDS as u32);
    let mut inputs = Vec::new();
    for count in [0, 1, least - 1, most + 1, u32::MAX] {
        let bytes = with_count(count);
        let header = bytes[..bytes_of(&SHEET_P[..HEADER]).len()].to_vec();
        inputs.push(open("word 3 out of range, header alone", header));
        inputs.push(closed("word 3 out of range", bytes));
    }
    let count = SHEET_P.len() as u32;
    for count in [least, count - 1, count + 1, count + 7, most] {
        inputs.push(closed("word 3 of another sheet", with_count(count)));
    }
    inputs
}

/// After a length above 255 nothing more is read, and the sheet's checks come first.
fn too_long() -> Vec<Input> {
    let mut of_other_edition = SHEET_P;
    of_other_edition[EDITION_WORD] = 2;
    let too_dear = worked::with_lamp_cost(MAX_ACTION_COST as u32 + 1);
    let mut inputs = Vec::new();
    for words in [SHEET_P, of_other_edition, too_dear] {
        for length in [MAX_STEPS as u32 + 1, 1 << 16, 1 << 31, u32::MAX] {
            let bytes = bytes_of(&[&words[..], &[length]].concat());
            let with_plan = [&bytes[..], &bytes_of(&LIST_1)].concat();
            inputs.push(open("length over 255, nothing behind", bytes.clone()));
            inputs.push(closed("length over 255, nothing behind", bytes));
            inputs.push(open("length over 255, a plan behind", with_plan));
        }
    }
    inputs
}

pub fn of_random_cases(seed: u64) -> Vec<Input> {
    let kinds = kinds::all();
    let input = |number| {
        let (kind, case) = kinds::numbered(&kinds, seed, number);
        let name = format!("{kind}, --seed {seed} --case {number}");
        let mut input = of_case(&name, case)?;
        spoil(&mut Random::of_case(!seed, number), &mut input.bytes);
        Some(input)
    };
    (1..=RANDOM_CASES).filter_map(input).collect()
}

/// Most of the time the bytes stay whole; otherwise they are cut off, run on, or have one changed.
fn spoil(random: &mut Random, bytes: &mut Vec<u8>) {
    let index = random.index(bytes.len().max(1));
    match random.index(12) {
        0 => bytes.truncate(index),
        1 => bytes.push(random.filler() as u8),
        2 if !bytes.is_empty() => bytes[index] ^= 1 << random.index(8),
        _ => (),
    }
}
