//! Small texts for the translator with each line damaged in every way, and cut off at every byte.
//! They are the same in each run.

use super::{Answer, Case, Service};
use crate::makers::translator::damage::{changed, OF_ORDER};
use crate::makers::translator::faults::UNSUPPORTED;
use crate::makers::translator::{names, Listing, Text};
use crate::makers::{Random, Task};
use crate::rules::Cause;

const SEED: u64 = 1;
const TEXTS: u64 = 6;

/// A case with its name in a report of differences.
pub type Damaged = (String, Case);

pub fn cases() -> impl Iterator<Item = Damaged> {
    (1..=TEXTS).flat_map(|number| {
        let (text, words) = small_text(number);
        let mut cases = Vec::new();
        for line in 0..text.lines() {
            let of_line = lines_damaged(&text, &words, line).into_iter();
            cases.extend(of_line.map(|(name, case)| (format!("line {}: {name}", line + 1), case)));
        }
        cases.extend(cut_off_and_running_on(&text));
        let named = move |(name, case)| (format!("text {number}, {name}"), case);
        cases.into_iter().map(named)
    })
}

/// The text with this number and the words that are due for it; every second one has what sheets
/// don't have, and no words.
fn small_text(number: u64) -> (Text, Option<Vec<u32>>) {
    let random = &mut Random::of_case(SEED, number);
    let mut task = Task::small(random);
    let mut listing = Listing::in_any_way(random, &mut task);
    let is_supported = number % 2 == 0;
    if !is_supported {
        for (_, put) in UNSUPPORTED {
            put(&mut listing, random);
        }
    }
    let text = Text::of(&listing, &mut |bytes| names::any(random, bytes));
    (text, is_supported.then(|| task.words()))
}

/// With more room than any small text needs.
fn case(text: &[u8]) -> Case {
    let room = 512;
    Case::without_sheet(Service::Translate, room).with_text(text)
}

/// Line numbers count from 1.
fn broken(text: &[u8], line: usize) -> Case {
    case(text).refused(Cause::Text.at(line + 1))
}

/// A name that is changed is a name; another line may or may not break the form, and so may lines
/// out of order.
fn lines_damaged(text: &Text, words: &Option<Vec<u32>>, line: usize) -> Vec<(&'static str, Case)> {
    let mut cases = Vec::new();
    for way in changed(text.line(line)) {
        let bytes = text.replaced(text.content(line), &way.content);
        let case = match (text.is_name(line), words) {
            (true, Some(words)) => case(&bytes).due(Answer::translated(words.clone())),
            (false, _) if way.breaks => broken(&bytes, line),
            _ => case(&bytes),
        };
        cases.push((way.name, case));
    }
    for (name, way) in OF_ORDER {
        cases.extend(way(text, line).map(|bytes| (name, case(&bytes))));
    }
    cases
}

/// The first line that isn't whole is missing, or doesn't end. Every byte that may follow is one too
/// many.
fn cut_off_and_running_on(text: &Text) -> Vec<Damaged> {
    let mut cases = Vec::new();
    for length in 0..text.bytes.len() {
        let front = &text.bytes[..length];
        let whole = front.iter().filter(|&&byte| byte == b'\n').count();
        cases.push((format!("{length} bytes of it"), broken(front, whole)));
    }
    for byte in 0..=u8::MAX {
        let long = [&text.bytes[..], &[byte]].concat();
        let name = format!("byte {byte} behind it");
        cases.push((name, broken(&long, text.lines())));
    }
    cases
}
