//! Marks, the three ways of striking and the cheaper of both eliminations, on plans that hold much
//! to strike and on plans that hold little.

use super::{case_with, service_for_valid, Make, QUICK_STEPS};
use crate::cases::{reducing, Case, Service, SECOND};
use crate::makers::answered;
use crate::makers::cycles::{self, Shape};
use crate::makers::restores::{Asker, Restores, MOST_FOR_GOAL, MOST_LINKS};
use crate::makers::{List, Random, Walk};
use crate::rules::{Cause, Refusal, MAX_STEPS};
use std::ops::RangeInclusive;

pub const KINDS: &[(&str, Make)] = kinds! { random:
    "reduction: cycles" => of_shape(random, cycles::USUAL, SHORT),
    "reduction: cycles, many steps" => of_shape(random, cycles::USUAL, QUICK_STEPS),
    "reduction: repeated actions" => of_shape(random, cycles::FEW_ACTIONS, SHORT),
    "reduction: free actions" => of_shape(random, cycles::FREE_ACTIONS, SHORT),
    "reduction: tied costs" => of_shape(random, cycles::TIED_COSTS, SHORT),
    "reduction: goal held at the start" => of_goal_at_start(random),
    "reduction: several writers of a fact" => of_shape(random, cycles::MANY_WRITERS, SHORT),
    "reduction: 0 or 1 steps" => of_shape(random, cycles::USUAL, 1),
    "reduction: steps beside mask words" => of_edge_length(random),
    "reduction: task of any shape" => {
        List::from(Walk::of_any_length(random)?).case_of_some(random)
    },
    "reduction: needed steps and lamps" => {
        let [needed, lamps] = [(); 2].map(|_| random.size(0..=SHORT));
        answered::with_lamps(random, needed, lamps).case_of_some(random)
    },
    "reduction: needed steps, few lamps" => {
        let lamps = random.size(0..=FEW_LAMPS);
        let steps = random.pick(&EDGE_LENGTHS).min(MAX_STEPS);
        answered::with_lamps(random, steps - lamps, lamps).case_of_some(random)
    },
    "reduction: ways to one goal" => answered::with_ways(random).case_of_some(random),
    "reduction: lifts, drains and drops" => answered::with_gates(random).case_of_some(random),
    "marks: cycles" => marks_of_cycles(random),
    "marks: steps that support each other" => {
        let needed = random.size(0..=SHORT);
        let list = answered::with_idle_gates(random, needed);
        case_of_marks(random, list)
    },
    "marks: long chain of needs" => {
        let lamps = random.size(0..=FEW_LAMPS);
        let steps = random.size(LONG..=MAX_STEPS);
        let list = answered::with_lamps(random, steps - lamps, lamps);
        case_of_marks(random, list)
    },
    "marks: chain of earlier steps" => of_restores(random, SEVERAL, 0..=SHORT),
    "marks: long chain of earlier steps" => of_restores(random, SEVERAL, LONG / 2..=MOST_LINKS),
    "marks: earlier steps, for the goal" => {
        of_restores(random, &[Asker::Goal], 1..=MOST_FOR_GOAL)
    },
    "reduction: output short" => with_short_output(random, |walk, _| short_output(walk)),
    "reduction: output short, plan not valid" => with_short_output(random, |walk, random| {
        walk.spoil(random)?;
        short_output(walk)
    }),
    "reduction: output short, unknown action" => with_short_output(random, |walk, random| {
        let step = walk.random_step(random)?;
        walk.put_unknown_action(random, step)
    }),
};

/// Numbers of steps at which a word of a mask ends, and beside them; the last one is too many.
const EDGE_LENGTHS: [usize; 9] = [63, 64, 65, 127, 128, 129, 254, MAX_STEPS, MAX_STEPS + 1];
const SHORT: usize = 14;
const LONG: usize = 200;
const FEW_LAMPS: usize = 3;
const SEVERAL: &[Asker] = &[Asker::NextStep(2), Asker::NextStep(3), Asker::NextStep(4)];

fn of_shape(random: &mut Random, shape: Shape, most_steps: usize) -> Option<Case> {
    let length = random.size(0..=most_steps);
    cycles::list(random, shape, length).case_of_some(random)
}

/// Some of the goal, or all of it, holds at the start.
fn of_goal_at_start(random: &mut Random) -> Option<Case> {
    let length = random.size(1..=SHORT);
    let mut list = cycles::list(random, cycles::USUAL, length);
    let start = list.task.start();
    if random.once_in(2) {
        list.task.goal.retain(|fact| fact.holds(&start));
    }
    let is_held = list.task.goal.iter().any(|fact| fact.holds(&start));
    is_held.then(|| list.case_of_some(random))?
}

fn of_edge_length(random: &mut Random) -> Option<Case> {
    let length = random.pick(&EDGE_LENGTHS);
    let list = cycles::list(random, cycles::USUAL, length);
    let case = list.case_of_some(random)?;
    Some(match length > MAX_STEPS {
        true => case.refused(Cause::PlanLength.at(MAX_STEPS)),
        false => case,
    })
}

/// Marks of a plan that goes round in circles for long.
fn marks_of_cycles(random: &mut Random) -> Option<Case> {
    let shape = random.pick(&[cycles::USUAL, cycles::FEW_ACTIONS, cycles::MANY_WRITERS]);
    let length = random.size(0..=MAX_STEPS);
    cycles::list(random, shape, length).case(random, Service::Marks)
}

/// Most often all restores are marked, or nearly all, so that the exact reduction takes the plan.
fn of_restores(
    random: &mut Random,
    askers: &[Asker],
    links: RangeInclusive<usize>,
) -> Option<Case> {
    let links = random.size(links);
    let nearly_all = random.size(links.saturating_sub(SHORT)..=links);
    let some = random.size(0..=links);
    let restores = Restores {
        links,
        marked: random.pick(&[links, nearly_all, some]),
        asker: random.pick(askers),
        lamps: random.size(0..=FEW_LAMPS.min(MAX_STEPS - 2 * links)),
    };
    let list = restores.make(random);
    case_of_marks(random, list)
}

/// Most often of a service that the marks tell in.
fn case_of_marks(random: &mut Random, list: List) -> Option<Case> {
    let any = service_for_valid(random, list.plan.len());
    let service = random.pick(&[Service::Marks, Service::Exact, any]);
    list.case(random, service)
}

fn short_output(walk: &Walk) -> Option<Refusal> {
    Some(Cause::ShortOutput.at(walk.plan.len()))
}

/// One output is shorter than the plan or both are; what is kept may well fit.
fn with_short_output(
    random: &mut Random,
    spoil: impl Fn(&mut Walk, &mut Random) -> Option<Refusal>,
) -> Option<Case> {
    let steps = random.size(1..=2 * SHORT);
    let mut walk = cycles::walk(random, cycles::USUAL, steps);
    let refusal = spoil(&mut walk, random)?;
    let service = random.pick(&reducing());
    let mut outputs = [(); 2].map(|_| random.size(0..=2 * steps));
    let taken = if service.takes(SECOND) { 2 } else { 1 };
    let short = random.index(taken);
    outputs[short] = random.pick(&[steps - 1, outputs[short] % steps]);
    let case = case_with(random, service, &walk.task.words(), &walk.plan, outputs);
    Some(case.refused(refusal))
}
