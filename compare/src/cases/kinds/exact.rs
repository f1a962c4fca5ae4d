//! The exact reduction: on hard plans at many lengths, at the border of 20 unmarked steps, and on
//! plans of which all or nothing is struck.

use super::{case_with, plan_case, Make};
use crate::cases::{Case, Service};
use crate::makers::families::{Family, Shape, FAMILIES, PLACEMENTS};
use crate::makers::{action, cycles, fact, Action, List, Random, Task, Walk};
use crate::rules::{Cause, MAX_ACTION_COST, MAX_STEPS, MAX_UNMARKED};
use std::ops::RangeInclusive;

pub const KINDS: &[(&str, Make)] = kinds! { random:
    "exact: lamps" => of_family(random, Family::Lamps),
    "exact: several writers of each goal" => of_family(random, Family::Writers),
    "exact: overlapping covers" => of_family(random, Family::Covers),
    "exact: gates opened and shut" => of_family(random, Family::Gates),
    "exact: cheap steps before dear ones" => of_family(random, Family::Dear),
    "exact: keys of late doors" => of_family(random, Family::Keys),
    "exact: keys of a door that is needed" => of_family(random, Family::Vault),
    "exact: facts that are set again" => of_family(random, Family::Decoys),
    "exact: facts that are set again, and many" => of_family(random, Family::Laden),
    "exact: one step for several" => with_one_for_all(random),
    "exact: 20 unmarked" => with_most_unmarked(random),
    "exact: 21 unmarked" => {
        let list = with_unmarked(random, &FAMILIES, MAX_UNMARKED + 1)?;
        list.case(random, Service::Exact)
    },
    "exact: over 20 unmarked" => with_too_many(random)?.case(random, Service::Exact),
    "exact: over 20 unmarked, not valid" => not_valid(random, Service::Exact),
    "exact: over 20 unmarked, output short" => output_short(random, Service::Exact),
    "exact: everything struck" => everything_struck(random),
    "exact: nothing struck" => {
        let shape = random_shape(random, Family::Lamps);
        exact_case(random, Shape { size: 0, ..shape })
    },
    "exact: few actions, alike or free" => of_cycles(random, &ALIKE_OR_FREE),
    "exact: cycles, up to 20 steps" => of_cycles(random, &[cycles::USUAL, cycles::MANY_WRITERS]),
};

const ALIKE_OR_FREE: [cycles::Shape; 3] = [
    cycles::FEW_ACTIONS,
    cycles::FREE_ACTIONS,
    cycles::TIED_COSTS,
];
/// Numbers of steps at which a word of a mask ends, beside them, and the ends.
const LENGTHS: [usize; 9] = [0, 1, 63, 64, 65, 127, 128, 129, MAX_STEPS];
const SHORT: usize = 10;
const TOO_MANY: RangeInclusive<usize> = MAX_UNMARKED + 1..=MAX_STEPS;
/// Numbers of unmarked steps that don't take long.
const FEW_UNMARKED: usize = 8;
/// One case in so many has any number of unmarked steps.
const SELDOM: usize = 16;
/// One case in so many has 20 of them whatever its family.
const VERY_SELDOM: usize = 128;

/// The size that a plan has room for: a gate has a drain with each four of its steps.
fn room(steps: usize) -> usize {
    steps * 4 / 5
}

pub fn random_shape(random: &mut Random, family: Family) -> Shape {
    let few = random.size(0..=SHORT);
    let more = random.size(0..=2 * MAX_UNMARKED);
    let edge = random.pick(&LENGTHS);
    let steps = random.pick(&[few, more, edge]);
    let most = match random.once_in(SELDOM) && !has_many_states(family) {
        true => MAX_UNMARKED,
        false => FEW_UNMARKED,
    };
    Shape {
        family,
        placement: random.pick(&PLACEMENTS),
        steps,
        size: random.size(0..=most.min(room(steps))),
        costs: random_costs(random, MAX_ACTION_COST),
    }
}

/// Costs that are alike, often alike, or seldom; the dearest among them.
fn random_costs(random: &mut Random, most: usize) -> RangeInclusive<u32> {
    let most = most as u32;
    let lowest = random.pick(&[0, 0, 1, most - 1]);
    let width = random.pick(&[0, 1, 3, 100, most]);
    lowest..=(lowest + width).min(most)
}

fn exact_case(random: &mut Random, shape: Shape) -> Option<Case> {
    shape.make(random).case(random, Service::Exact)
}

fn of_family(random: &mut Random, family: Family) -> Option<Case> {
    let shape = random_shape(random, family);
    exact_case(random, shape)
}

/// Steps that each give one goal fact, and one step that costs as much as they all and gives all: it
/// is kept, since it is fewer.
fn with_one_for_all(random: &mut Random) -> Option<Case> {
    let goals = random.size(2..=6);
    let costs = random_costs(random, MAX_ACTION_COST / goals);
    let single = |goal| action(random.within(costs.clone()), vec![], vec![fact(goal, 1)]);
    let mut actions: Vec<Action> = (0..goals).map(single).collect();
    let cost_of_all = actions.iter().map(|action| action.cost).sum();
    let goal: Vec<_> = (0..goals).map(|goal| fact(goal, 1)).collect();
    let one = random.index(goals + 1);
    actions.insert(one, action(cost_of_all, vec![], goal.clone()));
    let plan: Vec<u32> = (0..actions.len() as u32).collect();
    let task = Task::from_zero(vec![2; goals], goal, actions);
    keeping(random, task, plan, vec![one])
}

/// The exact reduction keeps the steps with these indices, and nothing else is known.
fn keeping(random: &mut Random, task: Task, plan: Vec<u32>, steps: Vec<usize>) -> Option<Case> {
    let mut list = List::of(task, plan);
    list.known.exact = Some(steps);
    list.case(random, Service::Exact)
}

/// A plan of this size, if there is room for it.
fn of_size(random: &mut Random, families: &[Family], size: usize) -> Option<List> {
    let family = random.pick(families);
    let shape = random_shape(random, family);
    let shape = Shape { size, ..shape };
    (room(shape.steps) >= size).then(|| shape.make(random))
}

/// A plan with so many unmarked steps: some families have a marked step among those of their size.
fn with_unmarked(random: &mut Random, families: &[Family], unmarked: usize) -> Option<List> {
    let size = unmarked + random.index(2);
    let list = of_size(random, families, size)?;
    (list.known.unmarked == Some(unmarked)).then_some(list)
}

/// Whether no two reductions of a front reach one state, so that the rules take minutes over many
/// unmarked steps.
pub fn has_many_states(family: Family) -> bool {
    matches!(family, Family::Vault | Family::Decoys | Family::Laden)
}

/// Of most families 20 steps reach so many states that the rules take long.
fn with_most_unmarked(random: &mut Random) -> Option<Case> {
    let family = match random.once_in(VERY_SELDOM) {
        true => random.pick(&FAMILIES),
        false => Family::Lamps,
    };
    if has_many_states(family) {
        return None;
    }
    with_unmarked(random, &[family], MAX_UNMARKED)?.case(random, Service::Exact)
}

fn with_too_many(random: &mut Random) -> Option<List> {
    let size = random.size(TOO_MANY);
    let list = of_size(random, &FAMILIES, size)?;
    (list.known.unmarked > Some(MAX_UNMARKED)).then_some(list)
}

/// Whether a plan is valid is told before its marks are counted.
pub fn not_valid(random: &mut Random, service: Service) -> Option<Case> {
    let list = with_too_many(random)?;
    let mut walk = Walk::of(list.task, &list.plan);
    let refusal = walk.spoil(random)?;
    let case = plan_case(random, service, &walk.task, &walk.plan);
    Some(case.refused(refusal))
}

pub fn output_short(random: &mut Random, service: Service) -> Option<Case> {
    let list = with_too_many(random)?;
    let steps = list.plan.len();
    let shorter = random.size(0..=steps - 1);
    let outputs = [random.pick(&[steps - 1, shorter]), 0];
    let words = list.task.words();
    let case = case_with(random, service, &words, &list.plan, outputs);
    Some(case.refused(Cause::ShortOutput.at(steps)))
}

/// The goal holds at the start, and at the end again.
fn everything_struck(random: &mut Random) -> Option<Case> {
    let length = random.size(1..=MAX_UNMARKED);
    let List { mut task, plan, .. } = cycles::list(random, cycles::USUAL, length);
    let start = task.start();
    task.goal.retain(|fact| fact.holds(&start));
    keeping(random, task, plan, Vec::new())
}

fn of_cycles(random: &mut Random, shapes: &[cycles::Shape]) -> Option<Case> {
    let shape = random.pick(shapes);
    let length = random.size(0..=MAX_UNMARKED);
    cycles::list(random, shape, length).case(random, Service::Exact)
}
