//! Long lists of each kind that the makers know, and what the licence claims of them.

use super::record::Record;
use super::services;
use crate::cases::{Answer, Service};
use crate::makers::answered::{tied_gates, twins};
use crate::makers::cycles::{self, Shape};
use crate::makers::families::{self, Family, FAMILIES, PLACEMENTS};
use crate::makers::{dense, jobs, List, Random, Walk};
use crate::rules::license::BY_SEARCH;
use crate::rules::{MAX_STEPS, MAX_UNMARKED};
use std::ops::RangeInclusive;

/// What the cases are counted under.
const KIND: &str = "license: long lists";

/// The lists of each kind.
const LISTS: u64 = 40;
const LENGTHS: RangeInclusive<usize> = 100..=MAX_STEPS;
/// The knots of a list, and the gates that are tied in one.
const KNOTS: RangeInclusive<usize> = 1..=12;
const TIED: usize = 4;

/// Where a list comes from.
#[derive(Clone, Copy)]
enum Source {
    AnyTask,
    Gates,
    Deliveries,
    /// Knots among lamps.
    Knots(fn(&mut Random) -> List),
    Cycles(Shape),
    Hard(Family),
}

/// The name of a kind, and where its lists come from.
type Kind = (String, Source);

const KINDS: [(&str, Source); 11] = [
    ("random tasks", Source::AnyTask),
    ("walks among gates", Source::Gates),
    ("deliveries", Source::Deliveries),
    ("knots, dense", Source::Knots(dense::knot)),
    (
        "knots, tied gates",
        Source::Knots(|random| tied_gates(random, TIED)),
    ),
    ("knots, twins", Source::Knots(twins)),
    ("cycles", Source::Cycles(cycles::USUAL)),
    ("cycles, few actions", Source::Cycles(cycles::FEW_ACTIONS)),
    ("cycles, free actions", Source::Cycles(cycles::FREE_ACTIONS)),
    ("cycles, many writers", Source::Cycles(cycles::MANY_WRITERS)),
    ("cycles, tied costs", Source::Cycles(cycles::TIED_COSTS)),
];

fn kinds() -> Vec<Kind> {
    let mut kinds = Vec::from(KINDS.map(|(name, source)| (name.to_string(), source)));
    kinds.extend(FAMILIES.map(|family| {
        let name = format!("family of {family:?}").to_lowercase();
        (name, Source::Hard(family))
    }));
    kinds
}

impl Source {
    fn make(self, random: &mut Random, length: usize) -> List {
        match self {
            Source::AnyTask => random_task(random, length),
            Source::Gates => jobs::gates(random, length).into(),
            Source::Deliveries => jobs::deliveries(random, length).into(),
            Source::Knots(knot) => of_knots(random, length, knot),
            Source::Cycles(shape) => cycles::list(random, shape, length),
            Source::Hard(family) => of_family(random, family, length),
        }
    }
}

/// Tasks are tried until one has actions.
fn random_task(random: &mut Random, length: usize) -> List {
    let walk = (0..).find_map(|_| Walk::random(random, length));
    walk.expect("some task has actions").into()
}

/// More steps of the family than the exact reduction takes.
fn of_family(random: &mut Random, family: Family, length: usize) -> List {
    let shape = families::Shape {
        family,
        placement: random.pick(&PLACEMENTS),
        steps: length,
        size: random.size(MAX_UNMARKED + 1..=length / 2),
        costs: 1..=100,
    };
    shape.make(random)
}

fn of_knots(random: &mut Random, length: usize, knot: fn(&mut Random) -> List) -> List {
    let count = random.size(KNOTS);
    let knots = (0..count).map(|_| knot(random)).collect();
    List::among_lamps(random, knots, length)
}

/// The list of a kind with this number.
fn numbered((_, source): &Kind, seed: u64, number: u64) -> List {
    let random = &mut Random::of_case(seed, number);
    let length = random.size(LENGTHS);
    source.make(random, length)
}

/// Lists without end, of which the kinds take turns.
pub fn in_turns(seed: u64) -> impl Iterator<Item = List> {
    let kinds = kinds();
    (0..).map(move |turn: usize| {
        let kind = &kinds[turn % kinds.len()];
        numbered(kind, seed, (turn / kinds.len()) as u64)
    })
}

/// Compares the library on lists of each kind, and counts the claims. The search stands for the
/// rules, which would take minutes over some lists; elsewhere it is held to them.
pub fn compare(record: &mut Record, seed: u64) {
    for kind in kinds() {
        let (name, _) = &kind;
        for number in 0..LISTS {
            if record.is_over() {
                return;
            }
            let title = || format!("{KIND}: {name}, seed {seed}, list {number}");
            try_list(record, name, &numbered(&kind, seed, number), title);
        }
    }
}

fn try_list(record: &mut Record, kind: &str, list: &List, title: impl Fn() -> String) {
    let case = list.fitting(Service::License);
    let licence = BY_SEARCH.license(&case.lent.words, &list.plan, list.plan.len());
    let (licensed, grounds) = licence.ok().expect("the lists are valid");
    record.claims_about(kind).count(&licensed, &grounds);
    services::try_answer(record, KIND, &case, Answer::licensed(licensed), title);
}
