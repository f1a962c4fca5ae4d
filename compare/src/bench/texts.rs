//! The texts for the translator that are measured.

use super::plans::name;
use crate::cases::{Case, Service};
use crate::makers::translator::{Change, Listing, Number, Operator, Pair, Text};
use crate::makers::Task;
use crate::rules::{MAX_VARIABLES, MAX_WORDS};

/// What most of a text is made of.
#[derive(Clone, Copy, Debug)]
pub enum Bulk {
    /// Operators of one prevail condition and one effect.
    Small,
    /// The same with long names.
    Named,
    /// Operators that ask for every variable and set every one, in falling order.
    Full,
    /// Mutex groups.
    Mutex,
}

pub const BULKS: [Bulk; 4] = [Bulk::Small, Bulk::Named, Bulk::Full, Bulk::Mutex];
/// About so many bytes.
pub const SIZES: [usize; 3] = [15_000, 30_000, 60_000];

#[derive(Clone, Copy)]
pub struct LongText {
    pub bulk: Bulk,
    pub size: usize,
}

const VALUES: u32 = 12;
const MUTEX_PAIRS: usize = 100;
/// So many pieces are written to see how long one is.
const TRIED: usize = 16;

impl LongText {
    pub fn all() -> impl Iterator<Item = LongText> {
        let of_bulk = |bulk| SIZES.map(|size| LongText { bulk, size });
        BULKS.into_iter().flat_map(of_bulk)
    }

    /// What tells it to the program.
    pub fn arguments(self) -> [String; 2] {
        [name(self.bulk), name(self.size)]
    }

    /// As many pieces as make up the size.
    pub fn make(self) -> Vec<u8> {
        let [none, tried] = [0, TRIED].map(|pieces| self.with(pieces).len());
        let pieces = (self.size - none) * TRIED / (tried - none);
        self.with(pieces)
    }

    pub fn case(self) -> Case {
        Case::without_sheet(Service::Translate, MAX_WORDS).with_text(&self.make())
    }

    /// The names of the variables and their values are empty, so that nearly all of even a short
    /// text is pieces.
    fn with(self, pieces: usize) -> Vec<u8> {
        let (variables, name) = match self.bulk {
            Bulk::Small | Bulk::Mutex => (24, 20),
            Bulk::Named => (24, 200),
            Bulk::Full => (MAX_VARIABLES, 20),
        };
        let sizes = vec![VALUES; variables];
        let mut listing = Listing::of(&Task::from_zero(sizes, Vec::new(), Vec::new()));
        for piece in 0..pieces {
            match self.bulk {
                Bulk::Mutex => listing.mutex_groups.push(mutex_group(variables, piece)),
                Bulk::Full => listing.operators.push(full_operator(variables, piece)),
                _ => listing.operators.push(small_operator(variables, piece)),
            }
        }
        let mut of_variables = 0..variables * (1 + VALUES as usize);
        let mut put_name = |bytes: &mut Vec<u8>| match of_variables.next() {
            Some(_) => (),
            None => bytes.extend(vec![b'a'; name]),
        };
        Text::of(&listing, &mut put_name).bytes
    }
}

/// A variable with a value that is not the same in each piece.
fn pair(variable: usize, piece: usize) -> Pair {
    [
        variable as Number,
        ((variable + piece) % VALUES as usize) as Number,
    ]
}

fn mutex_group(variables: usize, piece: usize) -> Vec<Pair> {
    let pairs = 0..MUTEX_PAIRS;
    pairs
        .map(|index| pair(index % variables, piece + index))
        .collect()
}

fn small_operator(variables: usize, piece: usize) -> Operator {
    let asked = piece % variables;
    let set = (piece + 1) % variables;
    Operator {
        prevail: vec![pair(asked, piece)],
        effects: vec![Change::to(pair(set, piece), Some(0))],
        cost: 1,
    }
}

fn full_operator(variables: usize, piece: usize) -> Operator {
    let falling = (0..variables).rev();
    Operator {
        prevail: falling.clone().map(|it| pair(it, piece)).collect(),
        effects: falling
            .map(|it| Change::to(pair(it, piece + 1), None))
            .collect(),
        cost: 1,
    }
}
