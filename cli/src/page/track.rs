//! One variable along the moves, and the spans into which the moves are parted to be drawn.

use crate::answer::Course;
use std::ops::RangeInclusive;

/// So many moves fit beside each other on a telephone. A longer list is drawn in several spans.
const MOST_IN_SPAN: usize = 30;

/// The values of a variable: at the start, and behind each lodged move.
pub struct Track {
    /// Where all moves are made.
    pub lodged: Vec<u32>,
    /// Where only the kept ones are.
    pub left: Vec<u32>,
}

/// Moves in a row, by their positions.
#[derive(Clone, Copy, Debug, PartialEq)]
pub struct Span {
    pub first: usize,
    pub last: usize,
}

impl Track {
    pub fn of(course: &Course, variable: usize) -> Track {
        let along = |states: &[Vec<u32>]| states.iter().map(|state| state[variable]).collect();
        Track {
            lodged: along(&course.lodged),
            left: along(&course.left),
        }
    }

    /// Whether the courses part behind the move at a position.
    pub fn differs(&self, position: usize) -> bool {
        self.lodged[position] != self.left[position]
    }

    /// All values that occur within a span, on either course.
    pub fn values(&self, span: Span) -> impl Iterator<Item = u32> + '_ {
        self.lodged[span.states()]
            .iter()
            .chain(&self.left[span.states()])
            .copied()
    }

    /// Whether neither course moves within a span.
    pub fn is_still(&self, span: Span) -> bool {
        self.values(span)
            .all(|value| value == self.left[span.first - 1])
    }
}

impl Span {
    /// All moves of a list.
    pub fn whole(moves: usize) -> Span {
        Span {
            first: 1,
            last: moves,
        }
    }

    /// The moves of a list in as few spans as can be, all but the last of one length.
    pub fn parts(moves: usize) -> Vec<Span> {
        let length = Span::length_of_parts(moves);
        (1..=moves)
            .step_by(length)
            .map(|first| Span {
                first,
                last: (first + length - 1).min(moves),
            })
            .collect()
    }

    /// How many moves each span of a list has.
    pub fn length_of_parts(moves: usize) -> usize {
        let spans = moves.div_ceil(MOST_IN_SPAN).max(1);
        moves.div_ceil(spans).max(1)
    }

    pub fn positions(self) -> RangeInclusive<usize> {
        self.first..=self.last
    }

    /// The state before the first move, and those behind each.
    fn states(self) -> RangeInclusive<usize> {
        self.first - 1..=self.last
    }
}

#[cfg(test)]
mod tests {
    use super::super::sample::Sample;
    use super::*;

    #[test]
    fn spans_cover_each_move_once() {
        for moves in 0..=255 {
            let covered: Vec<usize> = Span::parts(moves)
                .into_iter()
                .flat_map(Span::positions)
                .collect();
            assert_eq!(covered, (1..=moves).collect::<Vec<usize>>());
        }
    }

    #[test]
    fn spans_are_alike() {
        assert_eq!(
            Span::parts(40),
            [
                Span { first: 1, last: 20 },
                Span {
                    first: 21,
                    last: 40
                }
            ]
        );
        assert!(Span::parts(255)
            .iter()
            .all(|span| span.last - span.first < MOST_IN_SPAN));
    }

    #[test]
    fn a_variable_that_never_changes_is_still() {
        let course = Sample::new().course;
        assert!(!Track::of(&course, 0).is_still(Span::whole(4)));
        assert!(Track::of(&course, 1).is_still(Span::whole(4)));
        assert!(Track::of(&Sample::empty().course, 0).is_still(Span::whole(0)));
    }

    #[test]
    fn the_courses_part_at_struck_moves() {
        let track = Track::of(&Sample::new().course, 0);
        let differing: Vec<usize> = (0..=4)
            .filter(|&position| track.differs(position))
            .collect();
        assert_eq!(differing, [1]);
    }
}
