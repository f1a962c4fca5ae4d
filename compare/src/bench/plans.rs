//! The plans that are measured.

use crate::makers::answered::{self, tied_gates};
use crate::makers::families::{Family, Placement, Shape, FAMILIES, PLACEMENTS};
use crate::makers::restores::{Asker, Restores, MOST_LINKS};
use crate::makers::{chain, fact, jobs, List, Random, Task};
use crate::rules::{pair_word, ACTION_HEAD, FIRST_ACTION_PAIR, MAX_STEPS, MAX_UNMARKED};
use crate::rules::{MAX_VARIABLES, MAX_WORDS};
use std::fmt::Debug;
use std::ops::Range;

pub const LENGTHS: [usize; 3] = [60, 128, MAX_STEPS];

const SEED: u64 = 1;
/// The facts that a large action has among its preconditions, and as many among its effects.
const LARGE_GROUP: usize = MAX_VARIABLES / 2;

/// A plan of a hard family, of the size that had as many unmarked steps as there may be by the older
/// rule of marks.
#[derive(Clone, Copy)]
pub struct HardPlan {
    pub family: Family,
    pub placement: Placement,
    pub steps: usize,
}

/// What tells a variant or a number in the program's arguments and in tables.
pub fn name(it: impl Debug) -> String {
    format!("{it:?}").to_lowercase()
}

impl HardPlan {
    pub fn of(family: Family, placement: Placement, steps: usize) -> Self {
        HardPlan {
            family,
            placement,
            steps,
        }
    }

    /// As long as a plan may be, with the family's steps in front.
    pub fn longest_in_front(family: Family) -> Self {
        HardPlan::of(family, Placement::Front, MAX_STEPS)
    }

    pub fn make(self) -> List {
        let shape = Shape {
            family: self.family,
            placement: self.placement,
            steps: self.steps,
            size: MAX_UNMARKED,
            costs: 1..=100,
        };
        shape.make(&mut Random::of_case(SEED, hardest(self.family)))
    }

    /// Each family at each placement, at growing lengths.
    pub fn all() -> Vec<HardPlan> {
        let mut plans = Vec::new();
        for family in FAMILIES {
            for placement in PLACEMENTS {
                plans.extend(LENGTHS.map(|steps| HardPlan::of(family, placement, steps)));
            }
        }
        plans
    }

    /// What tells it to the program.
    pub fn arguments(self) -> [String; 3] {
        [name(self.family), name(self.placement), name(self.steps)]
    }
}

/// The case of the family that had the most turns of 2,000, with its steps in front of 235 marked
/// ones. They were chosen by the turns of earlier searches and by the older rule of marks, and stay
/// so that their rows can be compared with earlier ones. Lamps, the vault and decoys have the same
/// in each.
fn hardest(family: Family) -> u64 {
    match family {
        Family::Lamps => 1,
        Family::Writers => 1651,
        Family::Covers => 1391,
        Family::Gates => 1947,
        Family::Dear => 0,
        Family::Keys => 445,
        Family::Vault => 1,
        Family::Decoys => 1,
        Family::Laden => 461,
    }
}

fn random() -> Random {
    Random::of_case(SEED, 0)
}

/// A walk among gates, as long as a plan may be.
pub fn gates_walk() -> List {
    jobs::gates(&mut random(), MAX_STEPS).into()
}

/// A walk of trucks and parcels, as long as a plan may be.
pub fn deliveries_walk() -> List {
    jobs::deliveries(&mut random(), MAX_STEPS).into()
}

/// As many lamps as there may be beside a few needed steps.
pub fn lamps() -> List {
    let needed = 3;
    answered::with_lamps(&mut random(), needed, MAX_STEPS - needed)
}

/// Tied gates with so many steps in all, among lamps.
pub fn knots(steps: usize) -> List {
    let random = &mut random();
    let gates = 3;
    let count = steps / (gates + 1);
    let knots = (0..count).map(|_| tied_gates(random, gates)).collect();
    List::among_lamps(random, knots, MAX_STEPS)
}

/// The same list with variables that never change: each action asks for many of them and sets as
/// many.
pub fn with_large_actions(list: &List) -> List {
    let mut list = list.clone();
    let task = &mut list.task;
    let unchanging = task.sizes.len()..MAX_VARIABLES;
    task.sizes.resize(unchanging.end, 1);
    task.start.resize(unchanging.end, 0);
    for action in &mut task.actions {
        for facts in [&mut action.preconditions, &mut action.effects] {
            let missing = LARGE_GROUP - facts.len();
            let more = unchanging.clone().take(missing);
            facts.extend(more.map(|variable| fact(variable, 0)));
        }
    }
    list
}

/// How many facts an action has, from the fewest to the most.
pub fn facts_of(task: &Task) -> String {
    let sizes = task.actions.iter();
    let sizes = sizes.map(|action| action.preconditions.len() + action.effects.len());
    match (sizes.clone().min(), sizes.max()) {
        (Some(fewest), Some(most)) if fewest < most => format!("{fewest} to {most}"),
        (fewest, _) => fewest.unwrap_or(0).to_string(),
    }
}

/// As many needed steps as there may be, each of which makes the next one possible: each is marked
/// by the one behind it, a round later.
pub fn chain_of_needs() -> List {
    answered::with_lamps(&mut random(), MAX_STEPS, 0)
}

/// As many restores as there may be: each is marked by the one before it, a pass later.
pub fn chain_of_earlier_steps() -> List {
    let restores = Restores {
        links: MOST_LINKS,
        marked: MOST_LINKS,
        asker: Asker::NextStep(2),
        lamps: MAX_STEPS - 2 * MOST_LINKS,
    };
    restores.make(&mut random())
}

/// The most steps of a chain of levels for which a sheet has room: each has its pair, its head, a
/// fact of each variable and one effect; the goal has one fact.
pub const MOST_LEVELS: usize = (MAX_WORDS - pair_word(FIRST_ACTION_PAIR) - 2 * MAX_VARIABLES - 1)
    / (pair_word(1) - pair_word(0) + ACTION_HEAD + MAX_VARIABLES + 1);

/// Steps that ask for as many facts as there may be: for the level, which each of them raises, at
/// this variable, and for others that never change. Where a step is struck, of every later one the
/// level fails and nothing else.
pub fn chain_of_levels(level: usize, steps: usize) -> List {
    let mut actions = chain(level, steps, || 1);
    for action in &mut actions {
        let needed = action.preconditions.clone();
        let unchanging = |variables: Range<usize>| variables.map(|variable| fact(variable, 0));
        let facts = unchanging(0..level).chain(needed);
        action.preconditions = facts.chain(unchanging(level + 1..MAX_VARIABLES)).collect();
    }
    let mut sizes = vec![1; MAX_VARIABLES];
    sizes[level] += steps as u32;
    let task = Task::from_zero(sizes, vec![fact(level, steps)], actions);
    let all: Vec<usize> = (0..steps).collect();
    List::alike(task, (0..steps as u32).collect(), all.clone(), all)
}
