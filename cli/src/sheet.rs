//! A task as the words of a job sheet, and back. docs/SCOPE.md, "The job sheet", has the layout.

use crate::limits::MOST_VALUES;
use crate::task::{Action, Fact, Task, Variable};

pub const EDITION: u32 = 1;
/// The words in front of the pairs.
pub const HEADER: usize = 4;
/// The pairs in front of those of the actions: domain sizes, starting values, goal.
pub const FIRST_ACTION: usize = 3;

/// Where a part of a sheet begins, and how many words it has.
#[derive(Clone, Copy, Debug, PartialEq)]
pub struct Extent {
    pub at: usize,
    pub length: usize,
}

/// The word at an index; what is past the end reads as 0, as the library has it.
pub fn word(sheet: &[u32], at: usize) -> u32 {
    sheet.get(at).copied().unwrap_or(0)
}

pub fn variables(sheet: &[u32]) -> usize {
    word(sheet, 1) as usize
}

pub fn actions(sheet: &[u32]) -> usize {
    word(sheet, 2) as usize
}

pub fn length(sheet: &[u32]) -> usize {
    word(sheet, 3) as usize
}

pub fn part(sheet: &[u32], pair: usize) -> Extent {
    let at = HEADER + 2 * pair;
    Extent {
        at: word(sheet, at) as usize,
        length: word(sheet, at + 1) as usize,
    }
}

/// Where the parts begin: behind all pairs.
pub fn first_part(sheet: &[u32]) -> usize {
    HEADER + 2 * (FIRST_ACTION + actions(sheet))
}

/// The words of a task. Whether they are a sheet is for the library to say.
pub fn encode(task: &Task) -> Vec<u32> {
    let mut parts = vec![
        task.variables
            .iter()
            .map(|it| it.values.len() as u32)
            .collect(),
        task.variables.iter().map(|it| it.start as u32).collect(),
        words(&task.goal),
    ];
    parts.extend(task.actions.iter().map(action_words));
    let mut at = HEADER + 2 * parts.len();
    let mut sheet = vec![
        EDITION,
        task.variables.len() as u32,
        task.actions.len() as u32,
        0,
    ];
    for part in &parts {
        sheet.extend([at as u32, part.len() as u32]);
        at += part.len();
    }
    sheet[3] = at as u32;
    sheet.extend(parts.concat());
    sheet
}

fn action_words(action: &Action) -> Vec<u32> {
    let counts = [action.price, action.needs.len() as u32];
    [&counts[..], &words(&action.needs), &words(&action.effects)].concat()
}

fn words(facts: &[Fact]) -> Vec<u32> {
    let word = |it: &Fact| it.variable as u32 * MOST_VALUES + it.value as u32;
    facts.iter().map(word).collect()
}

/// The task that an accepted sheet means, its parts called by their numbers.
pub fn decode(sheet: &[u32]) -> Task {
    let [sizes, starts, goal] = [0, 1, 2].map(|pair| words_of(sheet, part(sheet, pair)));
    let variables = sizes.iter().zip(starts).enumerate();
    let variables = variables.map(|(v, (&size, &start))| Variable {
        name: variable_name(v),
        values: (0..size).map(|it| it.to_string()).collect(),
        start: start as usize,
    });
    Task {
        variables: variables.collect(),
        goal: facts(goal),
        actions: (0..actions(sheet)).map(|a| action(sheet, a)).collect(),
    }
}

/// What a variable and an action are called that have no names.
pub fn variable_name(v: usize) -> String {
    format!("v{v}")
}

pub fn action_name(a: usize) -> String {
    format!("a{a}")
}

fn action(sheet: &[u32], a: usize) -> Action {
    let words = words_of(sheet, part(sheet, FIRST_ACTION + a));
    let (needs, effects) = words[2..].split_at(words[1] as usize);
    Action {
        name: action_name(a),
        price: words[0],
        needs: facts(needs),
        effects: facts(effects),
    }
}

fn words_of(sheet: &[u32], part: Extent) -> &[u32] {
    &sheet[part.at..part.at + part.length]
}

fn facts(words: &[u32]) -> Vec<Fact> {
    words.iter().copied().map(fact).collect()
}

pub fn fact(word: u32) -> Fact {
    Fact {
        variable: (word / MOST_VALUES) as usize,
        value: (word % MOST_VALUES) as usize,
    }
}
