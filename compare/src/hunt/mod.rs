//! A hunt for the lists that the exact reduction is slowest on: a climb by chance changes from the
//! hard families and from small dense tasks. How high a list is told by the turns that the search
//! takes, which are the same in each run; the highest lists are then timed in the library and in the
//! program, since many are as high as any and a turn doesn't take as long in each.

mod changes;

use crate::bench::{best_time_of, Timed, MOST_TIME};
use crate::cases::Service;
use crate::comparison::inputs::closed;
use crate::comparison::programs::{written, Built};
use crate::comparison::report;
use crate::makers::families::{Shape, FAMILIES, PLACEMENTS};
use crate::makers::{cycles, List, Random};
use crate::rules::MAX_UNMARKED;
use std::time::{Duration, Instant};

/// A climb is stuck where so many changes in a row have not led higher by a hundredth.
const STUCK: usize = 400;
const HUNDREDTH: u64 = 100;
/// A climb ends after so many turns, about ten seconds, so that a short hunt has more than one.
const MOST_OF_CLIMB: u64 = 1_000_000_000;
/// The highest lists, of which each is timed.
const TIMED: usize = 8;
/// The best of so many times counts, so that what else the machine does makes no list the slowest.
const RUNS: usize = 3;
/// The steps of a list at the start of a climb.
const MOST_STEPS: usize = 60;

/// A list that a climb has led to.
struct Found {
    list: List,
    turns: u64,
}

/// Hunts for so many seconds, and answers whether no program took too long and no answers differed.
/// All that is printed beside the list is a comment, so that what is printed can be fed back.
pub fn run(built: &[Built], seed: u64, seconds: u64) -> bool {
    let end = Instant::now() + Duration::from_secs(seconds);
    let (mut tried, mut climbs, mut highest) = (0, 0, Vec::new());
    while Instant::now() < end {
        let random = &mut Random::of_case(seed, climbs);
        let (lists, found) = climb(random, climbs, end);
        tried += lists;
        climbs += 1;
        highest.extend(found);
        highest.sort_by_key(|found: &Found| std::cmp::Reverse(found.turns));
        highest.truncate(TIMED);
    }
    println!("# seed {seed}: {tried} lists tried in {climbs} climbs");
    let random = &mut Random::of_case(seed, climbs);
    let lists = highest.iter().flat_map(|it| it.list.with_lengths(random));
    let slow: Vec<Slow> = lists.map(|list| Slow::of(list, built)).collect();
    for slow in &slow {
        println!("# {}", slow.described(built));
    }
    let by_time = |a: &&Slow, b: &&Slow| a.slowest().total_cmp(&b.slowest());
    let differing = slow.iter().find(|slow| !slow.timed.are_alike());
    if let Some(shown) = differing.or(slow.iter().max_by(by_time)) {
        println!("# the slowest: {}", shown.described(built));
        let List { task, plan, .. } = &shown.list;
        print!(
            "{}",
            report::of_input(&report::input_words(&task.words(), plan))
        );
    }
    slow.iter().all(Slow::is_in_order)
}

/// Climbs from the start with this number until it is stuck. Answers with how many lists it has
/// tried, and the highest.
fn climb(random: &mut Random, number: u64, end: Instant) -> (u64, Option<Found>) {
    let list = start(random, number);
    let mut tried = 1;
    let Some(turns) = list.turns() else {
        return (tried, None);
    };
    let (mut left, mut last_height) = (STUCK, turns);
    let mut spent = 0;
    let mut found = Found { list, turns };
    while left > 0 && spent < MOST_OF_CLIMB && Instant::now() < end {
        let mut list = found.list.clone();
        changes::change(random, &mut list);
        tried += 1;
        left -= 1;
        let turns = list.turns();
        spent += turns.unwrap_or(0);
        // One that is as high may lead on.
        if let Some(turns) = turns.filter(|&turns| turns >= found.turns) {
            found = Found { list, turns };
        }
        if found.turns > last_height + last_height / HUNDREDTH {
            (left, last_height) = (STUCK, found.turns);
        }
    }
    (tried, Some(found))
}

/// The families take turns, from the last one on, and dense tasks behind them.
fn start(random: &mut Random, number: u64) -> List {
    let dense = [cycles::USUAL, cycles::MANY_WRITERS, cycles::TIED_COSTS];
    let index = number as usize % (FAMILIES.len() + dense.len());
    let Some(&family) = FAMILIES.iter().rev().nth(index) else {
        return cycles::list(random, dense[index - FAMILIES.len()], MAX_UNMARKED);
    };
    let shape = Shape {
        family,
        placement: random.pick(&PLACEMENTS),
        steps: random.size(2 * MAX_UNMARKED..=MOST_STEPS),
        size: random.size(MAX_UNMARKED - 1..=MAX_UNMARKED + 1),
        costs: 1..=100,
    };
    shape.make(random)
}

/// A list with its times, those of the programs in microseconds.
struct Slow {
    list: List,
    timed: Timed,
    programs: Vec<f64>,
}

impl Slow {
    fn of(list: List, built: &[Built]) -> Self {
        let mut timed = Timed::of(list.fitting(Service::Exact));
        (0..RUNS).for_each(|_| timed.run());
        let input = closed("the hunt's", list.input_bytes());
        let programs = built.iter().map(|built| {
            best_time_of(RUNS, || {
                if let Err(error) = written(&built.path, &input) {
                    println!("# {}: {error}", built.program.name);
                }
            })
        });
        Slow {
            timed,
            programs: programs.collect(),
            list,
        }
    }

    fn is_in_order(&self) -> bool {
        self.timed.are_alike() && self.programs.iter().all(|&time| time <= MOST_TIME)
    }

    fn slowest(&self) -> f64 {
        let [library, _] = self.timed.best();
        self.programs.iter().copied().fold(library, f64::max)
    }

    /// One line for its figures.
    fn described(&self, built: &[Built]) -> String {
        let [library, rust] = self.timed.best();
        let programs = built.iter().map(|built| built.program.name);
        let times = programs.zip(self.programs.iter().copied());
        let times = [("library", library), ("Rust", rust)]
            .into_iter()
            .chain(times)
            .map(|(name, time)| format!(", {name} {time:.0} µs"));
        let figures = format!(
            "{} steps, {} turns",
            self.list.plan.len(),
            self.timed.turns()
        );
        let others = match self.timed.are_alike() {
            true => "",
            false => ", the answers differ",
        };
        format!("{figures}{}{others}", times.collect::<String>())
    }
}
