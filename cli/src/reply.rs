//! What the words mean that the library writes. Words that no answer has are a fault of hollchiku
//! itself, and told as such: none is ever taken for an answer.

use crate::answer::{Claim, Move, Outcome, Tally};
use crate::limits::MOST_UNMARKED;
use std::fmt::{Display, Formatter};

/// A cause of refusal by its number, and its place.
#[derive(Clone, Copy, Debug, PartialEq)]
pub struct Refusal {
    pub number: u64,
    pub place: u64,
}

/// Words that no answer has.
#[derive(Clone, Debug, PartialEq)]
pub struct Unknown {
    /// What they stand for.
    pub what: &'static str,
    pub words: Vec<u64>,
}

impl Display for Unknown {
    fn fmt(&self, out: &mut Formatter) -> std::fmt::Result {
        let words: Vec<String> = self.words.iter().map(u64::to_string).collect();
        write!(out, "{} ({})", self.what, words.join(" "))
    }
}

fn unknown<A, E: From<Unknown>>(what: &'static str, words: &[u64]) -> Result<A, E> {
    let words = words.to_vec();
    Err(Unknown { what, words }.into())
}

/// Why the library gives no answer.
#[derive(Clone, Debug, PartialEq)]
pub enum NoAnswer {
    Refused(Refusal),
    Unknown(Unknown),
}

impl From<Unknown> for NoAnswer {
    fn from(words: Unknown) -> NoAnswer {
        NoAnswer::Unknown(words)
    }
}

/// Why a text is no text of words.
#[derive(Clone, Debug, PartialEq)]
pub enum NoWords {
    /// A field of this line is no word.
    Field(u64),
    /// On this line there are more words than a sheet and its list have.
    TooMany(u64),
    TooLong,
    Unknown(Unknown),
}

impl From<Unknown> for NoWords {
    fn from(words: Unknown) -> NoWords {
        NoWords::Unknown(words)
    }
}

/// The causes for which a service refuses: of what is read, of a list that is not valid, of one that
/// has no room besides, of too many unmarked moves; of a planner's text; of words in the program's
/// form.
pub const OF_READ: &[u64] = &[1, 2, 3, 4, 5, 6, 7, 8, 9];
pub const OF_VALID: &[u64] = &[1, 2, 3, 4, 5, 6, 7, 8, 9, 11];
pub const OF_STRIKING: &[u64] = &[1, 2, 3, 4, 5, 6, 7, 8, 9, 10, 11];
pub const OF_EXACT: &[u64] = &[1, 2, 3, 4, 5, 6, 7, 8, 9, 10, 11, 12];
pub const OF_TEXT: &[u64] = &[10, 13, 14, 15];
pub const OF_FORM: &[u64] = &[1, 2, 3, 4, 5, 6, 7, 8];

/// Whether a service that refuses for these causes has answered.
pub fn answered(out: [u64; 2], causes: &[u64]) -> Result<(), NoAnswer> {
    match out {
        [0, 0] => Ok(()),
        [number, place] if causes.contains(&number) => {
            Err(NoAnswer::Refused(Refusal { number, place }))
        }
        _ => unknown("the number and the place of a refusal", &out),
    }
}

/// A tally of a list of so many moves, or of some of them.
pub fn tally(words: [u64; 2], most: usize) -> Result<Tally, Unknown> {
    match words.map(u32::try_from) {
        [Ok(price), Ok(moves)] if moves as usize <= most => Ok(Tally { price, moves }),
        _ => unknown("a price and a number of moves", &words),
    }
}

/// What a licence claims. An open claim is one of more unmarked moves than the exact reduction takes.
pub fn claim(words: [u64; 2]) -> Result<Claim, Unknown> {
    match words {
        [0, unmarked] if unmarked > MOST_UNMARKED as u64 => Ok(Claim::Open(unmarked)),
        [1, 0] => Ok(Claim::Irreducible),
        [2, 0] => Ok(Claim::Least),
        _ => unknown("a claim", &words),
    }
}

/// How many there are of what was written to so much room.
pub fn count(word: u64, room: usize) -> Result<usize, Unknown> {
    match usize::try_from(word) {
        Ok(count) if count <= room => Ok(count),
        _ => unknown("a count that is larger than the room for it", &[word]),
    }
}

/// How many words a text has, of which there is room for so many.
pub fn words(out: [u64; 2], room: usize) -> Result<usize, NoWords> {
    match out {
        [0, found] => Ok(count(found, room)?),
        [1, line] => Err(NoWords::Field(line)),
        [2, line] => Err(NoWords::TooMany(line)),
        [3, 0] => Err(NoWords::TooLong),
        _ => unknown("what a text was read as", &out),
    }
}

/// How many words a sheet has and how many its list, behind a word for the list's length.
pub fn lengths(words: [u64; 2], room: usize) -> Result<[usize; 2], Unknown> {
    let [sheet, list] = [count(words[0], room)?, count(words[1], room)?];
    count((sheet + 1 + list) as u64, room)?;
    Ok([sheet, list])
}

/// How many words a row of a move has.
pub const ROW: usize = 9;

/// The moves of a list, each by its row: its price, whether it is kept and whether it is marked, and
/// the tallies up to it of all moves, of those kept and of those struck.
pub fn moves(rows: &[[u32; ROW]]) -> Result<Vec<Move>, Unknown> {
    let of_row = |row: &[u32; ROW]| {
        let &[price, is_kept, is_marked, _, _, left, moves, _, _] = row;
        Ok(Move {
            price,
            outcome: outcome([is_kept, is_marked].map(u64::from))?,
            left: tally([left, moves].map(u64::from), rows.len())?,
        })
    };
    rows.iter().map(of_row).collect()
}

/// What becomes of a move that is kept or not, and marked or not: no way of striking drops a marked
/// one.
fn outcome(flags: [u64; 2]) -> Result<Outcome, Unknown> {
    match flags {
        [0, 0] => Ok(Outcome::Struck),
        [1, 0] => Ok(Outcome::Kept),
        [1, 1] => Ok(Outcome::Marked),
        _ => unknown("what becomes of a move", &flags),
    }
}

#[cfg(test)]
mod tests {
    use super::*;

    const MOST: u64 = u64::MAX;

    fn refused(number: u64, place: u64) -> Result<(), NoAnswer> {
        Err(NoAnswer::Refused(Refusal { number, place }))
    }

    /// Whether it is told that the words mean nothing.
    fn means_nothing<A>(read: Result<A, impl Into<NoAnswer>>) -> bool {
        matches!(read.map_err(Into::into), Err(NoAnswer::Unknown(_)))
    }

    #[test]
    fn refusals() {
        assert_eq!(answered([0, 0], OF_READ), Ok(()));
        assert_eq!(answered([9, 3], OF_READ), refused(9, 3));
        assert_eq!(answered([12, 21], OF_EXACT), refused(12, 21));
        for causes in [OF_READ, OF_VALID, OF_STRIKING, OF_EXACT, OF_TEXT, OF_FORM] {
            for out in [[0, 1], [16, 0], [MOST, 0]] {
                assert!(means_nothing(answered(out, causes)), "{out:?}");
            }
        }
        assert!(means_nothing(answered([11, 1], OF_READ)));
        assert!(means_nothing(answered([10, 1], OF_VALID)));
        assert!(means_nothing(answered([12, 1], OF_STRIKING)));
        assert!(means_nothing(answered([13, 1], OF_EXACT)));
        assert!(means_nothing(answered([12, 1], OF_TEXT)));
        assert!(means_nothing(answered([9, 1], OF_FORM)));
    }

    #[test]
    fn tallies() {
        assert_eq!(tally([9, 2], 2), Ok(Tally { price: 9, moves: 2 }));
        for words in [[9, 3], [1 << 32, 2], [9, 1 << 32], [MOST, MOST]] {
            assert!(means_nothing(tally(words, 2)), "{words:?}");
        }
    }

    #[test]
    fn claims() {
        assert_eq!(claim([0, 21]), Ok(Claim::Open(21)));
        assert_eq!(claim([1, 0]), Ok(Claim::Irreducible));
        assert_eq!(claim([2, 0]), Ok(Claim::Least));
        for words in [
            [0, 0],
            [0, 20],
            [1, 1],
            [2, 1],
            [3, 0],
            [MOST, 0],
            [MOST, MOST],
        ] {
            assert!(means_nothing(claim(words)), "{words:?}");
        }
    }

    #[test]
    fn counts() {
        assert_eq!(count(4, 4), Ok(4));
        assert!(means_nothing(count(5, 4)));
        assert!(means_nothing(count(MOST, 4)));
        assert_eq!(lengths([3, 2], 6), Ok([3, 2]));
        for words in [[3, 3], [7, 0], [0, 7], [MOST, 1]] {
            assert!(means_nothing(lengths(words, 6)), "{words:?}");
        }
    }

    #[test]
    fn texts_of_words() {
        assert_eq!(words([0, 7], 7), Ok(7));
        assert_eq!(words([1, 2], 7), Err(NoWords::Field(2)));
        assert_eq!(words([2, 3], 7), Err(NoWords::TooMany(3)));
        assert_eq!(words([3, 0], 7), Err(NoWords::TooLong));
        for out in [[0, 8], [3, 1], [4, 0], [MOST, 0]] {
            assert!(matches!(words(out, 7), Err(NoWords::Unknown(_))), "{out:?}");
        }
    }

    #[test]
    fn rows() {
        let row = [5, 1, 0, 9, 2, 5, 1, 4, 1];
        let told = Move {
            price: 5,
            outcome: Outcome::Kept,
            left: Tally { price: 5, moves: 1 },
        };
        assert_eq!(moves(&[row]), Ok(vec![told]));
        assert_eq!(moves(&[]), Ok(Vec::new()));
        let flags = [
            ([0, 0], Outcome::Struck),
            ([1, 0], Outcome::Kept),
            ([1, 1], Outcome::Marked),
        ];
        for (flags, due) in flags {
            assert_eq!(outcome(flags), Ok(due));
        }
        for flags in [[0, 1], [2, 0], [1, 2], [MOST, 0]] {
            assert!(means_nothing(outcome(flags)), "{flags:?}");
        }
        for at in [1, 2, 6] {
            let mut wrong = row;
            wrong[at] = u32::MAX;
            assert!(means_nothing(moves(&[wrong])), "{at}");
        }
    }
}
