//! Plans: valid ones by walks, for the checker of plans, the states along them and their moves, and each way for a
//! plan to be refused, for every service that takes a plan.

use super::{plan_case, service_for_valid, Make};
use crate::cases::{taking_plan, Case, Service};
use crate::makers::{random_step, Random, Task, Walk};
use crate::rules::{Cause, Refusal, MAX_ACTION_COST, MAX_STEPS};

pub const KINDS: &[(&str, Make)] = kinds! { random:
    "plan: valid" => Walk::of_any_length(random)?.accepted(random),
    "plan: valid, 254 or 255 steps" => {
        let length = MAX_STEPS - random.index(2);
        Walk::random(random, length)?.accepted(random)
    },
    "plan: valid, dearest" => dearest(random),
    "plan: valid, empty" => Walk::random(random, 0)?.accepted(random),
    "plan: empty, goal unmet" => Walk::random(random, 0)?.refused(random, Walk::spoil_goal),
    "plan: goal unmet" => Walk::of_any_length(random)?.refused(random, Walk::spoil_goal),
    "plan: goal of an earlier state" => earlier_goal(random),
    "plan: failing step" => spoilt(random, Walk::spoil_step),
    "plan: two failing steps, goal unmet" => spoilt(random, put_two_failing_steps),
    "plan: unknown action" => spoilt(random, Walk::put_unknown_action),
    "plan: two unknown actions" => spoilt(random, put_two_unknown_actions),
    "plan: failing step, unknown action" => spoilt(random, put_failing_and_unknown),
    "plan: over 255 steps" => walk_too_long(random)?.refused(random, |_, _| Some(TOO_LONG)),
    "plan: over 255 steps, unknown action" => {
        walk_too_long(random)?.refused(random, |walk, random| {
            let step = walk.random_step(random)?;
            walk.put_unknown_action(random, step)?;
            Some(TOO_LONG)
        })
    },
    "plan: random actions" => random_actions(random),
};

const TOO_LONG: Refusal = Refusal {
    cause: Cause::PlanLength,
    place: MAX_STEPS,
};

impl Walk {
    fn accepted(&self, random: &mut Random) -> Option<Case> {
        let service = random.pick(&[Service::CheckPlan, Service::Course, Service::Moves]);
        let case = plan_case(random, service, &self.task, &self.plan);
        Some(match service {
            Service::CheckPlan => case.due(self.answer()),
            Service::Course => case.due(self.passing(self.states.len())),
            _ => case,
        })
    }

    /// Spoils the walk and hands it to some service. Where a plan that is not valid is no refusal, the
    /// states are those up to the step that fails, and its moves are told as those of a valid one.
    fn refused(
        mut self,
        random: &mut Random,
        spoil: impl Fn(&mut Walk, &mut Random) -> Option<Refusal>,
    ) -> Option<Case> {
        let refusal = spoil(&mut self, random)?;
        let service = random.pick(&taking_plan());
        let case = plan_case(random, service, &self.task, &self.plan);
        Some(match service {
            _ if service.refuses(refusal.cause) => case.refused(refusal),
            Service::Course => case.due(self.passing(refusal.place)),
            _ => case,
        })
    }
}

/// The greatest cost that a plan can have.
fn dearest(random: &mut Random) -> Option<Case> {
    let mut walk = Walk::random(random, MAX_STEPS)?;
    for action in &mut walk.task.actions {
        action.cost = MAX_ACTION_COST as u32;
    }
    walk.accepted(random)
}

/// A later step may undo the goal, and often the last one does.
fn earlier_goal(random: &mut Random) -> Option<Case> {
    let mut walk = Walk::of_any_length(random)?;
    let steps_before = random_step(random, walk.states.len());
    let last_but_one = walk.states.len().saturating_sub(2);
    walk.set_goal_of(random.pick(&[steps_before, last_but_one]));
    let service = service_for_valid(random, walk.plan.len());
    Some(plan_case(random, service, &walk.task, &walk.plan))
}

/// Spoils a walk at one of its steps, which it tells by its index.
fn spoilt(
    random: &mut Random,
    spoil: fn(&mut Walk, &mut Random, usize) -> Option<Refusal>,
) -> Option<Case> {
    let walk = Walk::of_any_length(random)?;
    let step = walk.random_step(random)?;
    walk.refused(random, |walk, random| spoil(walk, random, step))
}

fn put_two_failing_steps(walk: &mut Walk, random: &mut Random, first: usize) -> Option<Refusal> {
    let second = walk.random_step(random)?;
    walk.spoil_goal(random)?;
    let refusal = walk.spoil_step(random, first)?;
    if second > first {
        walk.spoil_step(random, second)?;
    }
    Some(refusal)
}

fn put_two_unknown_actions(walk: &mut Walk, random: &mut Random, step: usize) -> Option<Refusal> {
    let other = walk.random_step(random)?;
    walk.put_unknown_action(random, step);
    walk.put_unknown_action(random, other);
    Some(Cause::UnknownAction.at(step.min(other) + 1))
}

/// Actions are known or not before any step is done.
fn put_failing_and_unknown(walk: &mut Walk, random: &mut Random, step: usize) -> Option<Refusal> {
    let failing = walk.random_step(random)?;
    walk.spoil_step(random, failing)?;
    walk.put_unknown_action(random, step)
}

fn walk_too_long(random: &mut Random) -> Option<Walk> {
    let length = random.pick(&[MAX_STEPS + 1, MAX_STEPS + 2, 2 * MAX_STEPS + 2]);
    Walk::random(random, length)
}

fn random_actions(random: &mut Random) -> Option<Case> {
    let task = Task::random(random);
    let actions = task.actions.len();
    let steps = if actions > 0 { random.size(1..=6) } else { 0 };
    let plan: Vec<u32> = (0..steps).map(|_| random.index(actions) as u32).collect();
    let service = random.pick(&taking_plan());
    Some(plan_case(random, service, &task, &plan))
}
