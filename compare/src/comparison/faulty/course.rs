//! The states along a plan with one fault each.

use super::{fault, Fault};
use crate::cases::{Answer, Memory, Service};
use crate::rules::{all_hold, course, course_if, do_step, holds, read};
use crate::rules::{Lodged, Refusal, State, Values, MAX_VARIABLES};

pub fn faults() -> Vec<Fault> {
    let faults = FAULTS.map(|(name, states)| {
        fault(name, move |lent| {
            let states = states(lent).map(|it| Answer::passing(&it));
            Answer::of(Service::Course, states)
        })
    });
    Vec::from(faults)
}

type States = fn(&Memory) -> Result<Vec<Values>, Refusal>;

const FAULTS: [(&str, States); 7] = [
    ("looks at the last precondition alone", |lent| {
        let last = |facts: &[u32], state: &State| {
            let last = facts.last();
            last.is_none_or(|&fact| holds(fact, state))
        };
        course_if(last, &lent.words, &lent.plan)
    }),
    ("leaves out the first precondition", |lent| {
        let but_first = |facts: &[u32], state: &State| {
            let but_first = facts.split_first();
            but_first.is_none_or(|(_, others)| all_hold(others, state))
        };
        course_if(but_first, &lent.words, &lent.plan)
    }),
    ("passes over what can't be done", passing_over),
    ("refuses a plan that is not valid", |lent| {
        Lodged::check(&lent.words, &lent.plan, &[])?;
        right(lent)
    }),
    ("leaves out the end state", |lent| {
        let mut states = right(lent)?;
        states.truncate(lent.plan.len().max(1));
        Ok(states)
    }),
    ("tells 64 values of a state", |lent| {
        let mut states = right(lent)?;
        for state in &mut states {
            state.resize(MAX_VARIABLES, 0);
        }
        Ok(states)
    }),
    ("counts what it has room for", |lent| {
        let mut states = right(lent)?;
        let room = lent.states.len() / states[0].len();
        states.truncate(room);
        Ok(states)
    }),
];

fn right(lent: &Memory) -> Result<Vec<Values>, Refusal> {
    course(&lent.words, &lent.plan)
}

/// Goes on behind a step that can't be done, as a trial does.
fn passing_over(lent: &Memory) -> Result<Vec<Values>, Refusal> {
    let (task, actions) = read(&lent.words, &lent.plan)?;
    let mut state = task.start();
    let mut states = right(lent)?[..1].to_vec();
    for action in actions {
        if do_step(action, &mut state) {
            states.push(state[..task.sizes().len()].to_vec());
        }
    }
    Ok(states)
}
