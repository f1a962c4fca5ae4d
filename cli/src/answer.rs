//! What the library answers to a list.

use std::fmt::{Display, Formatter, Result};

/// A price and a number of moves.
#[derive(Clone, Copy, Debug, PartialEq)]
pub struct Tally {
    pub price: u32,
    pub moves: u32,
}

impl Tally {
    /// So many moves, as one says it.
    pub fn so_many(self) -> String {
        match self.moves {
            1 => "1 move".to_string(),
            moves => format!("{moves} moves"),
        }
    }
}

/// What is proved of the list that a licence leaves.
#[derive(Clone, Copy, Debug, PartialEq)]
pub enum Claim {
    Least,
    Irreducible,
    /// So many of its moves are unmarked, more than the exact reduction takes.
    Open(u64),
}

/// A way of striking, and what is claimed of what it leaves.
#[derive(Clone, Copy, Debug, PartialEq)]
pub enum Way {
    Licence(Claim),
    Exact,
    Greedy,
    Eliminate,
    Cheaper,
}

/// A list that was shortened. The library tells every number.
#[derive(Clone, Debug, PartialEq)]
pub struct Shortened {
    pub way: Way,
    /// The lodged moves.
    pub moves: Vec<Move>,
    /// The actions of those that are left.
    pub list: Vec<u32>,
    pub lodged: Tally,
    pub left: Tally,
    /// What the struck moves come to.
    pub saved: Tally,
}

/// A lodged move.
#[derive(Clone, Copy, Debug, PartialEq)]
pub struct Move {
    pub price: u32,
    pub outcome: Outcome,
    /// What the kept moves up to this one come to, with it.
    pub left: Tally,
}

impl Move {
    pub fn is_struck(&self) -> bool {
        self.outcome == Outcome::Struck
    }
}

/// What becomes of a lodged move.
#[derive(Clone, Copy, Debug, PartialEq)]
pub enum Outcome {
    Kept,
    /// Kept, and no valid striking drops it.
    Marked,
    Struck,
}

impl Display for Outcome {
    fn fmt(&self, out: &mut Formatter) -> Result {
        out.pad(match self {
            Outcome::Kept => "kept",
            Outcome::Marked => "marked",
            Outcome::Struck => "struck",
        })
    }
}

/// The states along a list: at the start, and behind each lodged move.
#[derive(Clone, Debug, PartialEq)]
pub struct Course {
    /// Where all moves are made.
    pub lodged: Vec<Vec<u32>>,
    /// Where only the kept ones are: behind a struck move the state is the one before it.
    pub left: Vec<Vec<u32>>,
}
