//! The times of both sides on one case.

use super::{table, Side, SIDES};
use crate::cases::{Case, Memory, Rule};
use crate::rules::{search, Lodged};
use std::hint::black_box;
use std::time::{Duration, Instant};

/// The runs of each side; the sides take turns, and so do all rows of a table, so that what else the
/// machine does for a while spoils no row.
pub const RUNS: usize = 15;
const LEAST_RUN: Duration = Duration::from_millis(5);

pub struct Timed {
    pub case: Case,
    sides: [(Side, Memory); 2],
    /// The best time of each side, in microseconds.
    best: [f64; 2],
    beside: Option<Beside>,
    /// Whether the case is made to be refused. Of any other a refusal is a wrong answer.
    is_refused: bool,
}

/// A rule that is timed in turns with both sides: it gives the same answer in another way.
struct Beside {
    rule: Rule,
    memory: Memory,
    best: f64,
}

/// A row of a table: what is timed, and the first of the rows that are of one thing at growing
/// lengths.
pub struct Row<'a, T> {
    pub it: &'a T,
    pub timed: &'a Timed,
    first: &'a Timed,
}

/// A column of a table: its head, and the cell that it has in a row.
pub type Column<T> = (&'static str, fn(&Row<T>) -> String);

/// Has all rows take turns, and prints each, with columns in front of the times of both sides and
/// behind them; so many rows are of one thing. Answers whether all answers were right.
pub fn print_times<T>(
    title: &str,
    rows: Vec<(T, Timed)>,
    lengths: usize,
    [front, behind]: [&[Column<T>]; 2],
) -> bool {
    let (all, mut times): (Vec<T>, Vec<Timed>) = rows.into_iter().unzip();
    for _ in 0..RUNS {
        times.iter_mut().for_each(Timed::run);
    }
    println!("{title}, best of {RUNS} runs:\n");
    let heads = |columns: &[Column<T>]| columns.iter().map(|it| it.0).collect::<Vec<_>>();
    let of_sides = ["Library", "Rust", "Ratio"];
    table::print_head(&[&heads(front), &of_sides[..], &heads(behind)].concat());
    let mut all_right = true;
    for (index, (it, timed)) in all.iter().zip(&times).enumerate() {
        let first = &times[index - index % lengths];
        let row = Row { it, timed, first };
        let cells = |columns: &[Column<T>]| columns.iter().map(|it| it.1(&row)).collect::<Vec<_>>();
        table::print_row(&[&cells(front), &timed.cells()[..], &cells(behind)].concat());
        all_right &= timed.answer().is_some();
    }
    all_right
}

impl<T> Row<'_, T> {
    /// The cell of how the library's time grows.
    pub fn growth(&self) -> String {
        format!("{:.2}", self.timed.best[0] / self.first.best[0])
    }
}

impl Timed {
    pub fn of(case: Case) -> Self {
        Timed {
            sides: SIDES.map(|side| (side, case.lent.clone())),
            case,
            best: [f64::INFINITY; 2],
            beside: None,
            is_refused: false,
        }
    }

    pub fn of_refused(case: Case) -> Self {
        let is_refused = true;
        Timed {
            is_refused,
            ..Timed::of(case)
        }
    }

    pub fn beside(self, rule: Rule) -> Self {
        let beside = Some(Beside {
            rule,
            memory: self.case.lent.clone(),
            best: f64::INFINITY,
        });
        Timed { beside, ..self }
    }

    pub fn run(&mut self) {
        let call = self.case.call;
        for ((side, memory), best) in self.sides.iter_mut().zip(&mut self.best) {
            *best = best.min(time_of(|| side.answer(call, black_box(memory))));
        }
        if let Some(Beside { rule, memory, best }) = &mut self.beside {
            let mut answer = || memory.write(&call.by(*rule, black_box(memory)));
            *best = best.min(time_of(&mut answer));
        }
    }

    /// The cell under "Turns": how many the search for the exact reduction takes.
    pub fn turns(&self) -> String {
        let Memory { words, plan, .. } = &self.case.lent;
        search::turns(words, plan).unwrap_or(0).to_string()
    }

    /// The cell under "Unmarked": how many steps the rule doesn't mark.
    pub fn unmarked(&self) -> String {
        let Memory { words, plan, .. } = &self.case.lent;
        unmarked(words, plan)
    }

    /// The cell of how many steps the right answer marks or keeps.
    pub fn steps_in_mask(&self) -> String {
        self.told(|memory| {
            let steps = memory.mask.iter().map(|word| word.count_ones());
            steps.sum::<u32>().to_string()
        })
    }

    /// The cell of something that the right answer tells, if both sides gave it.
    pub fn told(&self, tell: impl Fn(&Memory) -> String) -> String {
        let told = self.answer().map(|memory| tell(&memory));
        told.unwrap_or_else(|| "**the answers differ**".to_string())
    }

    /// The best times of the library and of the Rust version.
    pub fn best(&self) -> [f64; 2] {
        self.best
    }

    /// That of the rule beside them, if there is one.
    pub fn best_beside(&self) -> Option<f64> {
        self.beside.as_ref().map(|beside| beside.best)
    }

    /// The cells of a table under "Library", "Rust" and "Ratio".
    fn cells(&self) -> [String; 3] {
        let [library, rust] = self.best;
        let ratio = table::ratio(self.case.call.service, library / rust);
        [table::time(library), table::time(rust), ratio]
    }

    /// What is due by the way that the case was made or by the rules, unless one answers otherwise or
    /// it is a refusal where none is meant. The rules take minutes over some plans whose answer is
    /// known.
    pub fn answer(&self) -> Option<Memory> {
        let Case { call, lent, due } = &self.case;
        let right = match due {
            Some(due) => lent.after(due),
            None => lent.after(&call.by_rules(lent)),
        };
        let sides = self.sides.iter().map(|(_, memory)| memory);
        let beside = self.beside.iter().map(|beside| &beside.memory);
        let as_right = sides.chain(beside).all(|memory| *memory == right);
        let as_meant = is_accepted(&right) != self.is_refused;
        (as_right && as_meant).then_some(right)
    }

    /// Whether both sides give the same answer, right or not.
    pub fn are_alike(&self) -> bool {
        self.sides[0].1 == self.sides[1].1
    }
}

pub fn unmarked(words: &[u32], plan: &[u32]) -> String {
    let lodged = Lodged::check(words, plan, &[]);
    lodged.map_or(0, |lodged| lodged.unmarked()).to_string()
}

/// A refusal has its number in the first word of `out`.
pub fn is_accepted(memory: &Memory) -> bool {
    memory.out.first() == Some(&0)
}

/// The best of so many times.
pub fn best_time_of(runs: usize, mut call: impl FnMut()) -> f64 {
    let times = (0..runs).map(|_| time_of(&mut call));
    times.fold(f64::INFINITY, f64::min)
}

/// The microseconds that one of as many calls takes as make up a run.
fn time_of(mut call: impl FnMut()) -> f64 {
    let begin = Instant::now();
    let mut calls = 0;
    while calls == 0 || begin.elapsed() < LEAST_RUN {
        call();
        calls += 1;
    }
    let microseconds = begin.elapsed().as_secs_f64() * 1e6;
    microseconds / f64::from(calls)
}
