//! The layout of a sheet, which is read and written here alone: the task that a sheet holds, its
//! checks, and the words of its parts put together. Words are read as `usize` of 64 bits, so that no
//! sum of them can wrap.

use super::*;
use std::iter::once;
use std::ops::Range;

/// A task as the words of its sheet have it; it is handed out only when no check refuses.
#[derive(Clone, Copy)]
pub struct Task<'a> {
    words: &'a [u32],
}

/// An action of a task; its facts are words of the sheet.
#[derive(Clone, Copy)]
pub struct Action<'a> {
    pub cost: usize,
    pub preconditions: &'a [u32],
    pub effects: &'a [u32],
}

/// The word index of a pair's offset; its length stands next to it.
pub const fn pair_word(pair: usize) -> usize {
    HEADER + 2 * pair
}

/// Refusals 1 to 7. Each check reads only what the checks before it have found in order.
pub fn check_sheet(words: &[u32]) -> Result<Task<'_>, Refusal> {
    let task = Task { words };
    let length = words.len();
    let wrong_length = !(HEADER..=MAX_WORDS).contains(&length) || task.word(COUNT_WORD) != length;
    refuse(Cause::Length, wrong_length.then_some(0))?;
    let wrong_edition = task.word(EDITION_WORD) != EDITION;
    refuse(Cause::Edition, wrong_edition.then_some(0))?;
    let variables_wrong = !(1..=MAX_VARIABLES).contains(&task.variables());
    let wrong_range = variables_wrong || task.actions() > MAX_ACTIONS;
    refuse(Cause::Range, wrong_range.then_some(0))?;
    refuse(Cause::Pair, task.first_wrong_pair())?;
    refuse(Cause::Value, task.first_wrong_variable())?;
    refuse(Cause::Fact, task.first_wrong_fact())?;
    refuse(Cause::Cost, task.first_wrong_cost())?;
    Ok(task)
}

/// The checks of the parts.
impl<'a> Task<'a> {
    fn first_wrong_pair(self) -> Option<usize> {
        if pair_word(self.pairs()) > self.words.len() {
            return Some(0);
        }
        (0..self.pairs()).find(|&pair| self.pair_is_wrong(pair))
    }

    /// The pairs before this one are in order. An action's part is read only once it is known to
    /// lie in the sheet.
    fn pair_is_wrong(self, pair: usize) -> bool {
        let count = self.words.len();
        let (offset, length) = (self.offset(pair), self.length(pair));
        let end = offset + length;
        let is_last = pair + 1 == self.pairs();
        let has_values = pair == SIZES_PAIR || pair == START_PAIR;
        offset != self.due_offset(pair)
            || end > count
            || (is_last && end < count)
            || (has_values && length != self.variables())
            || (pair >= FIRST_ACTION_PAIR
                && (length < ACTION_HEAD || self.word(offset + 1) > length - ACTION_HEAD))
    }

    fn due_offset(self, pair: usize) -> usize {
        match pair {
            0 => pair_word(self.pairs()),
            _ => self.offset(pair - 1) + self.length(pair - 1),
        }
    }

    fn first_wrong_variable(self) -> Option<usize> {
        (0..self.variables()).find(|&variable| {
            let size = self.domain(variable);
            !(1..=MAX_DOMAIN).contains(&size) || self.start_value(variable) >= size
        })
    }

    /// The groups stand in word order, so this is the first wrong fact of them all.
    fn first_wrong_fact(self) -> Option<usize> {
        self.groups()
            .find_map(|group| self.first_wrong_fact_of(group))
    }

    fn first_wrong_fact_of(self, group: Range<usize>) -> Option<usize> {
        let first = group.start;
        group.into_iter().find(|&index| {
            let (variable, value) = split(self.words[index]);
            variable >= self.variables()
                || value as usize >= self.domain(variable)
                || (index > first && variable <= split(self.words[index - 1]).0)
        })
    }

    /// The word indices of the goal, then of each action's preconditions and effects.
    fn groups(self) -> impl Iterator<Item = Range<usize>> + 'a {
        let actions = (0..self.actions()).flat_map(move |action| {
            let part = self.part(FIRST_ACTION_PAIR + action);
            let facts = part.start + ACTION_HEAD;
            let effects = facts + self.word(part.start + 1);
            [facts..effects, effects..part.end]
        });
        once(self.part(GOAL_PAIR)).chain(actions)
    }

    fn first_wrong_cost(self) -> Option<usize> {
        (0..self.actions()).find(|&action| self.action(action).cost > MAX_ACTION_COST)
    }
}

/// What the sheet says.
impl<'a> Task<'a> {
    fn word(self, index: usize) -> usize {
        self.words[index] as usize
    }

    fn variables(self) -> usize {
        self.word(VARIABLES_WORD)
    }

    pub fn actions(self) -> usize {
        self.word(ACTIONS_WORD)
    }

    fn pairs(self) -> usize {
        FIRST_ACTION_PAIR + self.actions()
    }

    fn offset(self, pair: usize) -> usize {
        self.word(pair_word(pair))
    }

    fn length(self, pair: usize) -> usize {
        self.word(pair_word(pair) + 1)
    }

    fn part(self, pair: usize) -> Range<usize> {
        self.offset(pair)..self.offset(pair) + self.length(pair)
    }

    fn domain(self, variable: usize) -> usize {
        self.word(self.offset(SIZES_PAIR) + variable)
    }

    fn start_value(self, variable: usize) -> usize {
        self.word(self.offset(START_PAIR) + variable)
    }

    pub fn sizes(self) -> &'a [u32] {
        &self.words[self.part(SIZES_PAIR)]
    }

    /// The starting values, zero past the task's variables.
    pub fn start(self) -> State {
        let mut state = [0; MAX_VARIABLES];
        state[..self.variables()].copy_from_slice(&self.words[self.part(START_PAIR)]);
        state
    }

    pub fn goal(self) -> &'a [u32] {
        &self.words[self.part(GOAL_PAIR)]
    }

    pub fn action(self, action: usize) -> Action<'a> {
        let words = &self.words[self.part(FIRST_ACTION_PAIR + action)];
        let (head, facts) = words.split_at(ACTION_HEAD);
        let (preconditions, effects) = facts.split_at(head[1] as usize);
        Action {
            cost: head[0] as usize,
            preconditions,
            effects,
        }
    }
}

/// The word indices of the parts of a sheet whose pairs are in order.
pub fn parts(words: &[u32]) -> Vec<Range<usize>> {
    let task = Task { words };
    (0..task.pairs()).map(|pair| task.part(pair)).collect()
}

/// The words of a sheet, by those of its parts, which stand one behind the other.
pub fn sheet_of(variables: usize, lengths: &[usize], parts: &[u32]) -> Vec<u32> {
    let mut offset = pair_word(lengths.len());
    let count = offset + parts.len();
    let actions = lengths.len() - FIRST_ACTION_PAIR;
    let mut words = Vec::with_capacity(count);
    words.extend([EDITION, variables, actions, count].map(|word| word as u32));
    for &length in lengths {
        words.extend([offset as u32, length as u32]);
        offset += length;
    }
    words.extend_from_slice(parts);
    words
}
