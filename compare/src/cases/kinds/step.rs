//! Single steps on lent states of any values and many lengths.

use super::{random_length, step, Make};
use crate::cases::{Answer, Case};
use crate::makers::{set, unknown_action, Random, Task};
use crate::rules::{self, Cause, State};

pub const KINDS: &[(&str, Make)] = kinds! { random:
    "step: done" => {
        let mut setting = Setting::random(random)?;
        setting.make_applicable();
        let lent = setting.state;
        Some(setting.done(random, &lent))
    },
    "step: done, short or long state" => done_in_any_length(random),
    "step: one precondition off" => one_precondition_off(random),
    "step: unknown action" => {
        let task = Task::random(random);
        let state = random_state(random, &task);
        let action = unknown_action(random, &task);
        let case = step(random, &task.words(), &state, action);
        Some(case.refused(Cause::UnknownAction.at(1)))
    },
    "step: random state" => {
        let setting = Setting::random(random)?;
        let length = random_length(random, rules::MAX_VARIABLES);
        let lent = setting.lent(random, length);
        Some(setting.case(random, &lent))
    },
};

/// A task, the index of one of its actions, and a state for it.
struct Setting {
    task: Task,
    action: usize,
    state: State,
}

impl Setting {
    fn random(random: &mut Random) -> Option<Self> {
        let task = Task::random(random);
        let action = random.index_in(&task.actions)?;
        let state = random_state(random, &task);
        Some(Setting {
            task,
            action,
            state,
        })
    }

    fn make_applicable(&mut self) {
        set(
            &mut self.state,
            &self.task.actions[self.action].preconditions,
        );
    }

    /// The state in memory of this length, with any words past its values.
    fn lent(&self, random: &mut Random, length: usize) -> Vec<u32> {
        let mut lent = self.state.to_vec();
        lent.resize_with(length, || random.word());
        lent
    }

    fn case(&self, random: &mut Random, lent: &[u32]) -> Case {
        step(random, &self.task.words(), lent, self.action as u32)
    }

    fn done(mut self, random: &mut Random, lent: &[u32]) -> Case {
        let case = self.case(random, lent);
        set(&mut self.state, &self.task.actions[self.action].effects);
        case.due(Answer::accepted(&[]).with_state(&self.state))
    }
}

/// The values past the end of a short state read as zero; the words past the last value of a long
/// one stay.
fn done_in_any_length(random: &mut Random) -> Option<Case> {
    let mut setting = Setting::random(random)?;
    let length = random_length(random, rules::MAX_VARIABLES);
    for fact in &mut setting.task.actions[setting.action].preconditions {
        if fact.variable >= length {
            fact.value = 0;
        }
    }
    setting.make_applicable();
    let lent = setting.lent(random, length);
    Some(setting.done(random, &lent))
}

/// The one value may be outside its domain, and alike in its low bits to the value that is asked
/// for.
fn one_precondition_off(random: &mut Random) -> Option<Case> {
    let mut setting = Setting::random(random)?;
    setting.make_applicable();
    let preconditions = &setting.task.actions[setting.action].preconditions;
    let failing = preconditions[random.index_in(preconditions)?];
    setting.state[failing.variable] = other_value(random, failing.value);
    let case = setting.case(random, &setting.state);
    Some(case.refused(Cause::NotValid.at(1)))
}

/// A state with values within the domains and outside them.
pub fn random_state(random: &mut Random, task: &Task) -> State {
    let mut state = task.start();
    let outside = random.once_in(2);
    for (variable, value) in state.iter_mut().enumerate() {
        match task.sizes.get(variable) {
            Some(&size) if !outside => *value = random.within(0..=size - 1),
            _ => *value = random.word(),
        }
    }
    state
}

/// Another value, near the old one or alike in its low bits.
fn other_value(random: &mut Random, value: u32) -> u32 {
    let alike_in_low_byte = value ^ (1 << random.within(8..=31));
    let any = random.word();
    let other = random.pick(&[value ^ 1, alike_in_low_byte, !value, any]);
    if other == value {
        !value
    } else {
        other
    }
}
