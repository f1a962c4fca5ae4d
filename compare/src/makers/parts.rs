//! Parts that plans are made of: chains of steps, gates with their basins, and lanes of steps that
//! are laid into each other.

use super::{action, fact, Action, Fact, Random};

/// The actions of a chain: each makes the next one possible, and the variable counts them.
pub fn chain(variable: usize, length: usize, mut cost: impl FnMut() -> u32) -> Vec<Action> {
    let link = |step| {
        let [before, after] = [step, step + 1].map(|value| vec![fact(variable, value)]);
        action(cost(), before, after)
    };
    (0..length).map(link).collect()
}

/// The actions of a gate: lift, drain and drop. It has two variables, its own and its basin's.
pub const GATE_ACTIONS: usize = 3;

pub fn gate_actions(gate: usize, mut cost: impl FnMut() -> u32) -> [Action; GATE_ACTIONS] {
    let [shut, drained] = gate_goal(gate);
    let open = fact(2 * gate, 1);
    [(shut, open), (open, drained), (open, shut)]
        .map(|(condition, effect)| action(cost(), vec![condition], vec![effect]))
}

/// The gate is shut and its basin drained.
pub fn gate_goal(gate: usize) -> [Fact; 2] {
    [fact(2 * gate, 0), fact(2 * gate + 1, 1)]
}

/// The steps of a gate: it is lifted and dropped some times, lifted, drained and dropped, and
/// lifted and dropped again.
pub fn gate_lane(gate: usize, [before, after]: [usize; 2]) -> Vec<u32> {
    let [lift, drain, drop] = gate_steps(gate);
    let drained = vec![lift, drain, drop];
    [gate_turns(gate, before), drained, gate_turns(gate, after)].concat()
}

/// The gate is so many times lifted and dropped.
pub fn gate_turns(gate: usize, turns: usize) -> Vec<u32> {
    let [lift, _, drop] = gate_steps(gate);
    [lift, drop].repeat(turns)
}

fn gate_steps(gate: usize) -> [u32; GATE_ACTIONS] {
    let first = (GATE_ACTIONS * gate) as u32;
    [first, first + 1, first + 2]
}

/// Where a lane has the drain: behind the lifts and drops before it and its own lift.
pub fn drain_in_lane(before: usize) -> usize {
    2 * before + 1
}

/// A plan of all the lanes, each in its order, and the indices that the steps of each lane have.
pub fn laid_into_each_other(
    random: &mut Random,
    lanes: &[Vec<u32>],
) -> (Vec<u32>, Vec<Vec<usize>>) {
    let all = lanes.iter().map(Vec::len).sum();
    let mut plan = Vec::new();
    let mut places = vec![Vec::new(); lanes.len()];
    while plan.len() < all {
        let chosen = random.index(lanes.len());
        if let Some(&action) = lanes[chosen].get(places[chosen].len()) {
            places[chosen].push(plan.len());
            plan.push(action);
        }
    }
    (plan, places)
}
