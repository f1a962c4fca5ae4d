//! The arguments of the program.

use crate::bench::{name, HardPlan, LongText, Measured, Side};
use crate::bench::{BULKS, LENGTHS, SIDES, SIZES, TEXT};
use crate::comparison::programs::Built;
use crate::comparison::{fresh_seed, LONG_SECONDS};
use crate::makers::families::{FAMILIES, PLACEMENTS};
use std::collections::VecDeque;
use std::fmt::Debug;

const USAGE: &str = "usage: compare [--cases N] [--seed S] [--program PATH]...
                                      try N random cases, the worked lists, damaged texts, long
                                      lists and built programs
       compare --long [SECONDS] [--seed S] [--program PATH]...
                                      the same for ten minutes, or as long as said, with fresh
                                      seeds or from this one on
       compare --case I [--seed S]    try the one random case with this number
       compare --self-test [--seed S] try the rules alone: on the worked lists, against each
                                      other, and against services with a fault
       compare --bench [--program PATH]...
                                      time the library against Rust versions, and built programs
       compare --instructions         count instructions of the exact reduction and of reading
                                      texts for the translator, by valgrind
       compare --stack                find the least stack that the exact reduction runs in
       compare --hunt SECONDS [--seed S] [--program PATH]...
                                      look for lists that the exact reduction is slow on
       compare --records N [--seed S] write N records to standard output, as the programs read
                                      them: accepted sheets with lists of their actions, valid or
                                      not
       compare --once SIDE FAMILY PLACEMENT STEPS
       compare --once SIDE text BULK BYTES
                                      run the exact reduction once on a plan that --bench has, or
                                      read one of its texts once";

const DEFAULT_SEED: u64 = 1;
/// Takes about a minute.
const DEFAULT_CASES: u64 = 700_000;

pub struct Options {
    pub mode: Mode,
    pub seed: u64,
    pub built: Vec<Built>,
}

pub enum Mode {
    /// So many random cases.
    All(u64),
    /// For so many seconds.
    Long(u64),
    /// The random case with this number.
    One(u64),
    SelfTest,
    Bench,
    Instructions,
    Stack,
    /// For so many seconds.
    Hunt(u64),
    /// So many of them.
    Records(u64),
    Once(Side, Measured),
}

impl Options {
    pub fn parse(arguments: impl Iterator<Item = String>) -> Result<Self, String> {
        let mut arguments = Arguments(arguments.collect());
        let (mut mode, mut seed, mut built) = (Mode::All(DEFAULT_CASES), None, Vec::new());
        while let Some(argument) = arguments.0.pop_front() {
            match argument.as_str() {
                "--seed" => seed = Some(arguments.number()?),
                "--program" => built.push(Built::at(arguments.text()?.into())?),
                _ => mode = arguments.mode(&argument)?,
            }
        }
        let seed = match (seed, &mode) {
            (Some(seed), _) => seed,
            (None, Mode::Long(_)) => fresh_seed().map_err(|error| error.to_string())?,
            (None, _) => DEFAULT_SEED,
        };
        Ok(Options { mode, seed, built })
    }
}

/// Those that are still to be read.
struct Arguments(VecDeque<String>);

impl Arguments {
    fn mode(&mut self, argument: &str) -> Result<Mode, String> {
        Ok(match argument {
            "--cases" => Mode::All(self.number()?),
            "--long" => Mode::Long(self.number_if_any().unwrap_or(LONG_SECONDS)),
            "--case" => Mode::One(self.number()?),
            "--self-test" => Mode::SelfTest,
            "--bench" => Mode::Bench,
            "--instructions" => Mode::Instructions,
            "--stack" => Mode::Stack,
            "--hunt" => Mode::Hunt(self.number()?),
            "--records" => Mode::Records(self.number()?),
            "--once" => Mode::Once(self.one_of(&SIDES)?, self.measured()?),
            _ => return Err(USAGE.to_string()),
        })
    }

    fn measured(&mut self) -> Result<Measured, String> {
        if self.0.front().is_some_and(|it| it == TEXT) {
            self.0.pop_front();
            return Ok(Measured::Text(LongText {
                bulk: self.one_of(&BULKS)?,
                size: self.one_of(&SIZES)?,
            }));
        }
        let (family, placement) = (self.one_of(&FAMILIES)?, self.one_of(&PLACEMENTS)?);
        let steps = self.one_of(&LENGTHS)?;
        Ok(Measured::Plan(HardPlan::of(family, placement, steps)))
    }

    fn text(&mut self) -> Result<String, String> {
        self.0.pop_front().ok_or_else(|| USAGE.to_string())
    }

    fn number(&mut self) -> Result<u64, String> {
        self.text()?.parse().map_err(|_| USAGE.to_string())
    }

    fn number_if_any(&mut self) -> Option<u64> {
        let number = self.0.front()?.parse().ok()?;
        self.0.pop_front();
        Some(number)
    }

    fn one_of<T: Copy + Debug>(&mut self, all: &[T]) -> Result<T, String> {
        let text = self.text()?;
        let found = all.iter().copied().find(|it| name(it) == text);
        found.ok_or_else(|| USAGE.to_string())
    }
}
