//! Plans of small tasks that go round in circles, so that many strikings succeed: gates that are
//! lifted and dropped, steps that undo others, and several ways to the same fact.

use super::{action, set, Fact, List, Random, Task, Walk};
use crate::rules::State;

/// The most actions of a task, what their costs are taken from, and whether most of them move a
/// variable from one value to another; otherwise most of them have no preconditions.
#[derive(Clone, Copy)]
pub struct Shape {
    actions: usize,
    costs: &'static [u32],
    moves: bool,
}

const fn shape(actions: usize, costs: &'static [u32], moves: bool) -> Shape {
    Shape {
        actions,
        costs,
        moves,
    }
}

const COSTS: &[u32] = &[0, 1, 2, 3, 5];
pub const USUAL: Shape = shape(8, COSTS, true);
pub const FEW_ACTIONS: Shape = shape(2, COSTS, true);
pub const FREE_ACTIONS: Shape = shape(8, &[0, 0, 0, 1], true);
pub const TIED_COSTS: Shape = shape(8, &[2, 2, 2, 4], true);
pub const MANY_WRITERS: Shape = shape(8, COSTS, false);

/// A walk of `length` steps, part of it detours, whose goal is some of its end state.
pub fn walk(random: &mut Random, shape: Shape, length: usize) -> Walk {
    let mut walk = Walk::of(small_task(random, shape), &[]);
    let detours = random.size(0..=length / 2);
    while walk.plan.len() < length {
        let room = length - walk.plan.len();
        let place = random.index(walk.plan.len() + 1);
        match detour(random, &walk, place) {
            Some(detour) if room <= detours && detour.len() <= room => walk.insert(place, &detour),
            _ => walk.push(walk.random_applicable(random, walk.end())),
        }
    }
    walk.task.goal = some_facts(random, &walk);
    walk
}

pub fn list(random: &mut Random, shape: Shape, length: usize) -> List {
    walk(random, shape, length).into()
}

/// The first action has no preconditions, so that some action is applicable in every state.
fn small_task(random: &mut Random, shape: Shape) -> Task {
    let variables = random.size(1..=5);
    let sizes: Vec<u32> = (0..variables).map(|_| random.within(2..=3)).collect();
    let start = sizes.iter().map(|&n| random.within(0..=n - 1)).collect();
    let mut task = Task {
        start,
        ..Task::from_zero(sizes, Vec::new(), Vec::new())
    };
    add_setter(random, &mut task, shape);
    for _ in 0..random.size(0..=shape.actions) {
        if shape.moves != random.once_in(4) {
            add_move(random, &mut task, shape);
        } else {
            add_setter(random, &mut task, shape);
        }
    }
    task
}

fn random_fact(random: &mut Random, task: &Task) -> Fact {
    let variable = random.index(task.sizes.len());
    let value = random.within(0..=task.sizes[variable] - 1);
    Fact { variable, value }
}

/// The fact, and half of the time another one.
fn fact_and_more(random: &mut Random, task: &Task, fact: Fact) -> Vec<Fact> {
    let other = random_fact(random, task);
    let mut facts = vec![fact];
    if other.variable != fact.variable && random.once_in(2) {
        facts.push(other);
    }
    facts.sort_by_key(|fact| fact.variable);
    facts
}

/// An action without preconditions.
fn add_setter(random: &mut Random, task: &mut Task, shape: Shape) {
    let fact = random_fact(random, task);
    let effects = fact_and_more(random, task, fact);
    let cost = random.pick(shape.costs);
    task.actions.push(action(cost, Vec::new(), effects));
}

/// An action that gives a variable another value, and most of the time one that gives it the old
/// one back.
fn add_move(random: &mut Random, task: &mut Task, shape: Shape) {
    let from = random_fact(random, task);
    let to = task.other_value(random, from);
    let to = to.expect("a variable of a small task has two values or three");
    let both_ways = !random.once_in(4);
    let ways = [(from, to), (to, from)];
    for (from, to) in ways.into_iter().take(1 + usize::from(both_ways)) {
        let cost = random.pick(shape.costs);
        let preconditions = fact_and_more(random, task, from);
        let effects = fact_and_more(random, task, to);
        task.actions.push(action(cost, preconditions, effects));
    }
}

/// One or two steps that lead from the state at a place back to it.
fn detour(random: &mut Random, walk: &Walk, place: usize) -> Option<Vec<u32>> {
    let mut detour = Vec::new();
    let mut reached: State = walk.states[place];
    for _ in 0..2 {
        let action = walk.random_applicable(random, &reached);
        set(&mut reached, &walk.task.actions[action as usize].effects);
        detour.push(action);
        if reached == walk.states[place] {
            return Some(detour);
        }
    }
    None
}

/// None, some or all of the facts that hold in the end state.
fn some_facts(random: &mut Random, walk: &Walk) -> Vec<Fact> {
    let share = random.size(1..=3);
    let mut facts = walk.end_facts();
    facts.retain(|_| random.once_in(share));
    facts
}
