//! Accepted and damaged sheets, handed to each service that takes a sheet.

use super::step::random_state;
use super::{case_with, check_sheet, step, Make};
use crate::cases::{taking_plan, Answer, Case};
use crate::makers::faults::{self, Fault};
use crate::makers::{Random, Sheet, Task};
use crate::rules;

pub const KINDS: &[(&str, Make)] = kinds! { random:
    "sheet: accepted" => accepted(Task::random(random), random),
    "sheet: accepted, 8,190 to 8,192 words" => accepted(Task::filling(random), random),
    "sheet: two faults" => {
        let faults = [(); 2].map(|_| random.index(faults::all().len()));
        with_faults(random, faults)
    },
    "sheet: two faults of near rows" => with_two_near_faults(random),
    "sheet: words overwritten" => overwritten(random),
    "sheet: border of preconditions moved" => with_moved_border(random),
    "sheet: noise" => noise(random),
};

fn accepted(task: Task, random: &mut Random) -> Option<Case> {
    Some(check_sheet(random, &task.words()).due(Answer::accepted(&[])))
}

/// Full sheets too: at their ends a fault has the least room.
fn random_task(random: &mut Random) -> Task {
    if random.once_in(16) {
        Task::filling(random)
    } else {
        Task::random(random)
    }
}

pub fn with_fault(random: &mut Random, (cause, put): Fault) -> Option<Case> {
    let task = random_task(random);
    let mut sheet = Sheet::of(&task);
    let place = put(&mut sheet, random)?;
    Some(on_some_service(random, &task, sheet.words).refused(cause.at(place)))
}

/// The faults stand in the order of the table: near ones are of one row or of rows that follow each
/// other.
fn with_two_near_faults(random: &mut Random) -> Option<Case> {
    let reach = 3;
    let count = faults::all().len();
    let first = random.index(count);
    let second = (first + random.index(reach)).min(count - 1);
    let faults = random.pick(&[[first, second], [second, first]]);
    with_faults(random, faults)
}

/// Two causes at once show whether the checks stand in their order.
fn with_faults(random: &mut Random, faults: [usize; 2]) -> Option<Case> {
    let task = random_task(random);
    let mut sheet = Sheet::of(&task);
    for fault in faults {
        let (_, (_, put)) = faults::all()[fault];
        put(&mut sheet, random)?;
    }
    Some(on_some_service(random, &task, sheet.words))
}

/// Half of the words overwritten stand in the header and the pairs, which are few in a long sheet.
fn overwritten(random: &mut Random) -> Option<Case> {
    let task = random_task(random);
    let mut sheet = Sheet::of(&task);
    for _ in 0..random.size(1..=3) {
        let index = match random.index(2) {
            0 => random.index(sheet.pairs_end()),
            _ => random.index(sheet.words.len()),
        };
        sheet.words[index] = random.word();
    }
    Some(on_some_service(random, &task, sheet.words))
}

/// Facts pass from the preconditions to the effects or back, which may or may not break their
/// order.
fn with_moved_border(random: &mut Random) -> Option<Case> {
    let task = random_task(random);
    let mut sheet = Sheet::of(&task);
    let part = sheet.parts[sheet.random_action(random)?].clone();
    let facts = part.len() - rules::ACTION_HEAD;
    sheet.set(part.start + 1, random.size(0..=facts) as u32);
    Some(on_some_service(random, &task, sheet.words))
}

/// Small words in a short sheet whose header is in order.
fn noise(random: &mut Random) -> Option<Case> {
    let length = random.size(rules::HEADER..=40);
    let words = (0..length).map(|_| random.size(0..=length) as u32);
    let mut words: Vec<u32> = words.collect();
    words[rules::EDITION_WORD] = rules::EDITION as u32;
    words[rules::COUNT_WORD] = length as u32;
    words[rules::ACTIONS_WORD] = random.within(0..=2);
    let task = Task::random(random);
    Some(on_some_service(random, &task, words))
}

/// The task tells what states and actions there are.
fn on_some_service(random: &mut Random, task: &Task, words: Vec<u32>) -> Case {
    // An action of the task, or the first one that it doesn't have.
    let action = |random: &mut Random| random.index(task.actions.len() + 1) as u32;
    match random.index(6) {
        0 => {
            let state = random_state(random, task);
            let action = action(random);
            step(random, &words, &state, action)
        }
        1..=3 => {
            let steps = random.pick(&[0, 1, 2, 3, rules::MAX_STEPS + 1]);
            let plan: Vec<u32> = (0..steps).map(|_| action(random)).collect();
            let outputs = [(); 2].map(|_| random.size(0..=2 * steps));
            let service = random.pick(&taking_plan());
            case_with(random, service, &words, &plan, outputs)
        }
        _ => check_sheet(random, &words),
    }
}
