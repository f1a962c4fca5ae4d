//! The states along a list, lodged and left, as the library gives them.

use crate::answer::{Course, Move, Shortened};
use crate::library;
use crate::reply::{NoAnswer, Unknown};

/// The states along a valid list where all moves are made, and where only the kept ones are.
pub fn course(sheet: &[u32], list: &[u32], shortened: &Shortened) -> Result<Course, NoAnswer> {
    let left = library::course(sheet, &shortened.list)?;
    Ok(Course {
        lodged: library::course(sheet, list)?,
        left: behind_each(&left, &shortened.moves)?,
    })
}

/// At the start and behind each lodged move, the state that the kept moves have reached.
fn behind_each(states: &[Vec<u32>], moves: &[Move]) -> Result<Vec<Vec<u32>>, Unknown> {
    let made = moves.iter().map(|it| it.left.moves);
    let state_behind = |made: u32| {
        states.get(made as usize).cloned().ok_or_else(|| Unknown {
            what: "a number of kept moves that no state is behind",
            words: vec![made.into()],
        })
    };
    [0].into_iter().chain(made).map(state_behind).collect()
}

#[cfg(test)]
mod tests {
    use super::*;
    use crate::answer::{Outcome, Tally};

    /// A move behind which so many are kept.
    fn behind(moves: u32) -> Move {
        Move {
            price: 1,
            outcome: Outcome::Kept,
            left: Tally { price: 0, moves },
        }
    }

    #[test]
    fn a_struck_move_leaves_the_state_before_it() {
        let states = [vec![0], vec![1], vec![2]];
        let behind_all = behind_each(&states, &[0, 1, 1, 2].map(behind));
        assert_eq!(behind_all, Ok([0, 0, 1, 1, 2].map(|it| vec![it]).to_vec()));
        assert_eq!(behind_each(&[vec![0]], &[]), Ok(vec![vec![0]]));
        assert!(behind_each(&states, &[behind(3)]).is_err());
    }
}
