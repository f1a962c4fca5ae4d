//! The families with late steps. These are dear, so that all that may be kept in front of them is
//! below what the best costs, and it shows late that it was for nothing.

use super::part::Part;
use super::{Shape, MOST_LAMPS};
use crate::makers::{action, fact, Action, Fact, Random};
use crate::rules::MAX_VARIABLES;
use std::cmp::Reverse;

/// Late steps that each give a goal fact which doesn't hold before: one alone would be marked.
const WRITERS: usize = 2;
/// The late step that shuts what the chain has opened is marked.
const WITH_OPENED: usize = 1;
/// The chain sets facts again with a step, and needs them with another.
const CHAIN_OF_DECOYS: usize = 2;
/// The first decoy spoils all loads, and the next one sets them as they were.
const SPOIL_AND_RESTORE: usize = 2;
/// The last decoys, which need all loads.
const FULLY_LADEN: usize = 5;
/// The words of the sheet that are for what laden steps need and set.
const WORDS_FOR_LOADS: usize = 4_096;

/// The variable of what the late steps give; the first of what the cheap ones set stands behind it,
/// and the chain's counter behind them all.
const LATE: usize = 0;
const FIRST: usize = 1;
const COUNTERS: usize = 1;

/// The fact that a cheap step of this number sets.
fn own_fact(number: usize) -> Fact {
    fact(FIRST + number % MOST_LAMPS, 1)
}

impl Shape {
    pub(super) fn has_room_for_late(&self) -> bool {
        self.size >= 2 && self.steps >= self.size + CHAIN_OF_DECOYS
    }

    /// The same shape with the lowest costs: where these are near zero, all steps of the family
    /// together cost less than one of the dearest.
    fn cheap(&self) -> Self {
        let (lowest, highest) = (self.costs.start(), self.costs.end());
        let costs = *lowest..=lowest + self.narrow(highest - lowest);
        Shape {
            costs,
            ..self.clone()
        }
    }

    /// The same shape with the highest costs.
    fn dearest(&self) -> Self {
        let (lowest, highest) = (self.costs.start(), self.costs.end());
        let costs = highest - self.narrow(highest - lowest)..=*highest;
        Shape {
            costs,
            ..self.clone()
        }
    }

    fn narrow(&self, width: u32) -> u32 {
        width / (2 * self.size as u32)
    }

    /// The part of cheap actions, each of which has one step, and of dear ones behind them.
    fn with_late(&self, cheap: Vec<Action>, late: Vec<Action>, goal: Fact) -> Part {
        let (number, late_steps) = (cheap.len(), late.len());
        let actions = [cheap, late].concat();
        Part {
            sizes: vec![2; FIRST + number.min(MOST_LAMPS)],
            goal: vec![goal],
            steps: (0..actions.len() as u32).collect(),
            actions,
            late: late_steps,
            ..Part::default()
        }
    }

    /// Of the late writers the cheaper is kept, of those the last.
    pub(super) fn dear(&self, random: &mut Random) -> Part {
        let lamps = self.size - WRITERS;
        let cheap = self.cheap().lamp_actions(random, FIRST, lamps);
        let given = fact(LATE, 1);
        let late = self
            .dearest()
            .setters(random, [(); WRITERS].map(|_| vec![given]).into_iter());
        let best = (0..WRITERS).min_by_key(|&writer| (late[writer].cost, Reverse(writer)));
        let is_kept = |step| best.is_some_and(|best| step == lamps + best);
        Part {
            kept: Some((0..self.size).map(is_kept).collect()),
            ..self.with_late(cheap, late, given)
        }
    }

    /// Each door needs half of the keys or more.
    pub(super) fn keys(&self, random: &mut Random) -> Part {
        let keys = self.size - WRITERS;
        let cheap = self.cheap().lamp_actions(random, FIRST, keys);
        let given = fact(LATE, 1);
        let different = keys.min(MOST_LAMPS);
        let doors = [(); WRITERS].map(|_| {
            let needed = random.size(different / 2..=different);
            let is_needed = random.choose(needed, different);
            let needed = (0..different).filter(|&key| is_needed[key]);
            let cost = self.dearest().cost(random);
            action(cost, needed.map(own_fact).collect(), vec![given])
        });
        self.with_late(cheap, doors.to_vec(), given)
    }

    /// All is kept where each key has one step. The door is marked, since the chain has opened what it
    /// shuts, and so is each key that has one step.
    pub(super) fn vault(&self, random: &mut Random) -> Part {
        let keys = self.size - 1;
        let cheap = self.cheap().lamp_actions(random, FIRST, keys);
        let needed = (0..keys.min(MOST_LAMPS)).map(own_fact).collect();
        let [shut, open] = [0, 1].map(|value| fact(LATE, value));
        let door = action(self.dearest().cost(random), needed, vec![shut]);
        let shared = keys.saturating_sub(MOST_LAMPS).min(MOST_LAMPS);
        Part {
            kept: (shared == 0).then(|| vec![true; self.size]),
            marked: WITH_OPENED + keys.min(MOST_LAMPS) - shared,
            opened: vec![open],
            ..self.with_late(cheap, vec![door], shut)
        }
    }

    /// Only the late step is kept: what the decoys set is set again anyway. It is marked, since the
    /// chain has opened what it shuts.
    pub(super) fn decoys(&self, random: &mut Random) -> Part {
        let decoys = self.size - 1;
        let cheap = self.cheap().lamp_actions(random, FIRST, decoys);
        let [shut, open] = [0, 1].map(|value| fact(LATE, value));
        let late = action(self.dearest().cost(random), vec![], vec![shut]);
        Part {
            kept: Some((0..self.size).map(|step| step == decoys).collect()),
            marked: WITH_OPENED,
            opened: vec![open],
            set_again: (0..decoys.min(MOST_LAMPS)).map(own_fact).collect(),
            ..self.with_late(cheap, vec![late], shut)
        }
    }

    /// The first decoy spoils the loads, the next one sets them all as they were and others some of
    /// them; the last ones, which the most turns come to, need and set them all.
    pub(super) fn laden(&self, random: &mut Random) -> Part {
        let mut part = self.decoys(random);
        let first = part.sizes.len();
        let room = MAX_VARIABLES - COUNTERS - first;
        let count = room.min(WORDS_FOR_LOADS / (2 * self.size));
        part.sizes.resize(first + count, 2);
        let loads = |value| (first..first + count).map(move |load| fact(load, value));
        let decoys = part.actions.len() - part.late;
        let first_full = decoys.saturating_sub(FULLY_LADEN).max(SPOIL_AND_RESTORE);
        for (number, action) in part.actions.iter_mut().enumerate() {
            let needs_all = (first_full..decoys).contains(&number);
            let sets_all = !(SPOIL_AND_RESTORE..first_full).contains(&number);
            let value = usize::from(number == 0);
            let set = loads(value).filter(|_| sets_all || !random.once_in(4));
            action.effects.extend(set);
            if needs_all {
                action.preconditions.extend(loads(0));
            }
        }
        part.goal.extend(loads(0));
        part
    }
}
