//! Long walks of jobs that people do: among gates and basins, and with trucks that bring parcels
//! from place to place. They hold many detours.

use super::{action, fact, Action, Random, Task, Walk};
use std::ops::RangeInclusive;

const GATES: usize = 10;
/// A basin is drained from full through these steps.
const LEVELS: usize = 3;
const COSTS: RangeInclusive<u32> = 1..=9;

/// A walk among gates that are lifted and dropped again and basins that are drained level by level
/// while their gates are open. The goal is its whole end state.
pub fn gates(random: &mut Random, length: usize) -> Walk {
    let actions = (0..GATES).flat_map(|gate| actions_of_gate(random, gate));
    let actions = actions.collect();
    let sizes = [[2; GATES], [LEVELS as u32; GATES]].concat();
    let mut walk = walk(random, Task::from_zero(sizes, Vec::new(), actions), length);
    walk.task.goal = walk.end_facts();
    walk
}

fn walk(random: &mut Random, task: Task, length: usize) -> Walk {
    let mut walk = Walk::of(task, &[]);
    while walk.plan.len() < length {
        walk.push(walk.random_applicable(random, walk.end()));
    }
    walk
}

/// Lift, drop, and one drain for each level. Lifts and drops come often in a walk.
fn actions_of_gate(random: &mut Random, gate: usize) -> Vec<Action> {
    let [shut, open] = [0, 1].map(|value| fact(gate, value));
    let level = |value| fact(GATES + gate, value);
    let mut action = |conditions, effect| action(random.within(COSTS), conditions, vec![effect]);
    let mut actions = vec![action(vec![shut], open), action(vec![open], shut)];
    for value in 1..LEVELS {
        actions.push(action(vec![open, level(value - 1)], level(value)));
    }
    actions
}

const TRUCKS: usize = 3;
const PLACES: usize = 5;
const PARCELS: usize = 6;

/// A walk of trucks that drive from place to place and of parcels that are loaded and unloaded. The
/// goal is where the parcels are at the end.
pub fn deliveries(random: &mut Random, length: usize) -> Walk {
    let trucks = (0..TRUCKS).flat_map(|truck| actions_of_truck(random, truck));
    let actions = trucks.collect();
    let in_truck_or_at_place = (PLACES + TRUCKS) as u32;
    let sizes = [
        vec![PLACES as u32; TRUCKS],
        vec![in_truck_or_at_place; PARCELS],
    ]
    .concat();
    let mut walk = walk(random, Task::from_zero(sizes, Vec::new(), actions), length);
    walk.task.goal = walk.end_facts().split_off(TRUCKS);
    walk
}

/// Drives, then the loading and the unloading of each parcel at each place.
fn actions_of_truck(random: &mut Random, truck: usize) -> Vec<Action> {
    let mut cost = || random.within(COSTS);
    let mut actions = Vec::new();
    for place in 0..PLACES {
        let here = fact(truck, place);
        for other in (0..PLACES).filter(|&other| other != place) {
            actions.push(action(cost(), vec![here], vec![fact(truck, other)]));
        }
        for parcel in TRUCKS..TRUCKS + PARCELS {
            let [lies, loaded] = [place, PLACES + truck].map(|value| fact(parcel, value));
            actions.push(action(cost(), vec![here, lies], vec![loaded]));
            actions.push(action(cost(), vec![here, loaded], vec![lies]));
        }
    }
    actions
}
