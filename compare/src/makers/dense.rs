//! Small plans of dense tasks: few variables of two values, and steps that need and set many of
//! them. Of some the eliminations leave unmarked steps; from some of these something can still be
//! struck.

use super::{action, fact, fit, set, Fact, List, Random, Task};
use crate::rules::{Lodged, State, MAX_VARIABLES};
use std::ops::RangeInclusive;

const VARIABLES: RangeInclusive<usize> = 2..=5;
const STEPS: RangeInclusive<usize> = 3..=8;
const MOST_FACTS: usize = 3;
const COSTS: [u32; 4] = [1, 1, 2, 3];
/// Of so many plans one or more is a knot most often.
const ATTEMPTS: usize = 24;

/// A plan whose cheaper elimination leaves unmarked steps, most often; otherwise any plan.
pub fn knot(random: &mut Random) -> List {
    let mut attempts = (1..ATTEMPTS).map(|_| any(random));
    let knot = attempts.find(is_knot);
    knot.unwrap_or_else(|| any(random))
}

fn is_knot(List { task, plan, .. }: &List) -> bool {
    let words = task.words();
    let left = Lodged::check(&words, plan, &[]).map(|lodged| {
        let steps = lodged.cheaper_eliminated();
        lodged.keeping(&steps).actions
    });
    left.is_ok_and(|left| {
        let left = Lodged::check(&words, &left, &[]);
        left.is_ok_and(|left| left.unmarked() > 0)
    })
}

/// Each step has an action of its own, which can be done where it stands. The goal is most of the
/// end state, or all of it.
fn any(random: &mut Random) -> List {
    let variables = random.size(VARIABLES);
    let steps = random.size(STEPS);
    let mut state: State = [0; MAX_VARIABLES];
    let mut actions = Vec::new();
    for _ in 0..steps {
        let mut needs = some_facts(random, variables, 0);
        fit(&mut needs, &state);
        let sets = some_facts(random, variables, 1);
        set(&mut state, &sets);
        actions.push(action(random.pick(&COSTS), needs, sets));
    }
    let mut task = Task::from_zero(vec![2; variables], Vec::new(), actions);
    let is_whole = random.once_in(2);
    let asked = (0..variables).filter(|_| is_whole || !random.once_in(3));
    task.goal = asked.map(|variable| fact(variable, 0)).collect();
    fit(&mut task.goal, &state);
    List::of(task, (0..steps as u32).collect())
}

/// So many facts at least.
fn some_facts(random: &mut Random, variables: usize, least: usize) -> Vec<Fact> {
    let count = random.size(least..=MOST_FACTS.min(variables));
    let chosen = random.choose(count, variables).into_iter().enumerate();
    let chosen = chosen.filter(|(_, is_chosen)| *is_chosen);
    chosen
        .map(|(variable, _)| fact(variable, random.index(2)))
        .collect()
}
