//! The licence, on plans that come to each of its claims. Of plans that are joined of known parts
//! the claim is known, too, and what is left.

use super::exact::{has_many_states, not_valid, output_short, random_shape};
use super::{Make, QUICK_STEPS};
use crate::cases::{taking_plan, Case, Service};
use crate::makers::answered::{self, tied_gates, twins, FEWEST_TIED, TWINS};
use crate::makers::families::{Shape, FAMILIES};
use crate::makers::{cycles, dense, List, Random};
use crate::rules::{MAX_UNMARKED, MAX_VARIABLES};
use std::ops::RangeInclusive;

pub const KINDS: &[(&str, Make)] = kinds! { random:
    "license: cycles" => of_cycles(random),
    "license: hard families" => of_families(random),
    "license: hard families, over 20 unmarked" => of_families_with_many(random),
    "license: parts joined" => of_parts(random),
    "license: eliminations that differ" => of_differing(random),
    "license: knots" => {
        let most = random.pick(&[SHORT, MANY]);
        let steps = random.size(TWINS..=most);
        of_knots_among_others(random, steps)
    },
    "license: 19 to 22 unmarked" => {
        let unmarked = random.size(AT_LIMIT);
        let lamps = random.size(0..=unmarked - TWINS);
        let others = vec![needed_and_lamps(random, lamps)];
        of_knots(random, unmarked - lamps, others)
    },
    "license: 19 to 22 left unmarked" => {
        let steps = random.size(AT_LIMIT);
        of_knots_among_others(random, steps)
    },
    "license: dense knots" => of_dense_knot(random),
    "license: dense knots joined" => of_dense_knots(random),
    "license: over 20 unmarked, not valid" => not_valid(random, Service::License),
    "license: over 20 unmarked, output short" => output_short(random, Service::License),
};

const AT_LIMIT: RangeInclusive<usize> = MAX_UNMARKED - 1..=MAX_UNMARKED + 2;
const MANY: usize = 30;
const SHORT: usize = 6;
const MOST_IN_KNOT: usize = 6;
const MOST_PARTS: usize = 8;
/// The different ones among dense knots that are joined, and how many there are in all.
const DIFFERENT: usize = 2;
const JOINED: RangeInclusive<usize> = 4..=10;

fn of_cycles(random: &mut Random) -> Option<Case> {
    let shapes = [cycles::USUAL, cycles::FREE_ACTIONS, cycles::MANY_WRITERS];
    let (shape, length) = (random.pick(&shapes), random.size(0..=QUICK_STEPS));
    cycles::list(random, shape, length).case(random, Service::License)
}

/// At most 20 steps are unmarked.
fn of_families(random: &mut Random) -> Option<Case> {
    let family = random.pick(&FAMILIES);
    let shape = random_shape(random, family);
    shape.make(random).case(random, Service::License)
}

fn of_families_with_many(random: &mut Random) -> Option<Case> {
    let family = random.pick(&FAMILIES);
    (!has_many_states(family)).then_some(())?;
    let size = MAX_UNMARKED + random.size(1..=SHORT);
    let shape = Shape {
        steps: size + random.size(SHORT..=MANY),
        size,
        ..random_shape(random, family)
    };
    shape.make(random).case(random, Service::License)
}

/// What parts are made by.
const PARTS: [fn(&mut Random) -> List; 7] = [
    answered::with_ways,
    answered::with_cover,
    answered::with_gates,
    |random| {
        let needed = random.size(0..=SHORT);
        answered::with_idle_gates(random, needed)
    },
    |random| {
        let lamps = random.size(0..=MANY);
        needed_and_lamps(random, lamps)
    },
    |random| {
        let gates = random.size(FEWEST_TIED..=MOST_IN_KNOT - 1);
        tied_gates(random, gates)
    },
    twins,
];

fn needed_and_lamps(random: &mut Random, lamps: usize) -> List {
    let needed = random.size(0..=SHORT);
    answered::with_lamps(random, needed, lamps)
}

fn of_parts(random: &mut Random) -> Option<Case> {
    let count = random.size(1..=MOST_PARTS);
    let parts = (0..count).map(|_| random.pick(&PARTS)(random)).collect();
    joined(random, parts)
}

/// Parts that the eliminations keep other steps of: either of them may be the cheaper one, and
/// often neither is.
fn of_differing(random: &mut Random) -> Option<Case> {
    let lamps = random.size(0..=MANY);
    let mut parts = vec![needed_and_lamps(random, lamps)];
    for _ in 0..random.size(1..=MOST_PARTS) {
        let make = random.pick(&[answered::with_ways, answered::with_cover]);
        parts.push(make(random));
    }
    joined(random, parts)
}

/// Lamps, and gates of which some steps are marked only in what is left.
fn of_knots_among_others(random: &mut Random, steps: usize) -> Option<Case> {
    let most = random.pick(&[SHORT, MANY]);
    let lamps = random.size(0..=most);
    let mut others = vec![needed_and_lamps(random, lamps)];
    if random.once_in(2) {
        others.push(answered::with_gates(random));
    }
    of_knots(random, steps, others)
}

/// Knots with so many steps in all, and other parts.
fn of_knots(random: &mut Random, steps: usize, others: Vec<List>) -> Option<Case> {
    let mut parts = others;
    let mut left = steps;
    while left > 0 {
        let size = random.size(TWINS..=MOST_IN_KNOT.min(left));
        // A knot has more steps than one.
        if left - size != 1 {
            left -= size;
            parts.push(match size {
                TWINS => twins(random),
                _ => tied_gates(random, size - 1),
            });
        }
    }
    joined(random, parts)
}

/// Nothing if they have too many variables.
fn joined(random: &mut Random, mut parts: Vec<List>) -> Option<Case> {
    let variables: usize = parts.iter().map(|part| part.task.sizes.len()).sum();
    (variables <= MAX_VARIABLES).then_some(())?;
    random.shuffle(&mut parts);
    let at_a_time = random.pick(&[1, 2, parts.len()]);
    List::joined(random, &parts, at_a_time).case(random, Service::License)
}

/// One or two of them.
fn of_dense_knot(random: &mut Random) -> Option<Case> {
    let count = random.size(1..=2);
    let knots: Vec<List> = (0..count).map(|_| dense::knot(random)).collect();
    let list = List::joined(random, &knots, count);
    let any = random.pick(&taking_plan());
    let service = random.pick(&[Service::License, any]);
    list.case(random, service)
}

/// Few different ones, since they take long to find. The rules take long where the steps of many
/// are laid into each other.
fn of_dense_knots(random: &mut Random) -> Option<Case> {
    let different = [(); DIFFERENT].map(|_| dense::knot(random));
    let count = random.size(JOINED);
    let knots = (0..count).map(|_| different[random.index(DIFFERENT)].clone());
    let knots: Vec<List> = knots.collect();
    let at_a_time = random.size(1..=2);
    List::joined(random, &knots, at_a_time).case(random, Service::License)
}
