//! The columns of a strip: one for each move of its span.

use super::track::Span;

/// The room for labels at the left, alike in all strips, so that strips can be compared.
pub const GUTTER: usize = 80;

/// The room for all moves of a span, and the most for one. With the gutter it is as wide as a
/// telephone.
const PLOT: usize = 240;
const WIDEST: usize = 24;

/// From this width on a column has room for its position. Otherwise every fifth is told.
const ROOMY: usize = 20;
const FIFTH: usize = 5;

/// The positions that two labels must be apart.
const APART: usize = 3;

pub struct Columns {
    pub span: Span,
    /// The width of each.
    pub width: usize,
}

impl Columns {
    /// The columns of a span in a list of so many moves. The width goes by the whole list, so that
    /// the last span is drawn like the others.
    pub fn of(span: Span, moves: usize) -> Columns {
        Columns {
            span,
            width: (PLOT / Span::length_of_parts(moves)).min(WIDEST),
        }
    }

    /// The left side of a move's column.
    pub fn edge(&self, position: usize) -> usize {
        GUTTER + (position - self.span.first) * self.width
    }

    /// The middle of a move's column, where its change is drawn.
    pub fn middle(&self, position: usize) -> usize {
        self.edge(position) + self.width / 2
    }

    /// The right side of the last column.
    pub fn right(&self) -> usize {
        self.edge(self.span.last + 1)
    }

    /// The positions that are told: the first, and every fifth, or each where there is room.
    pub fn told(&self) -> impl Iterator<Item = usize> + '_ {
        let first = self.span.first;
        self.span.positions().filter(move |&position| {
            let fifth = position % FIFTH == 0 && position >= first + APART;
            self.width >= ROOMY || position == first || fifth
        })
    }
}

#[cfg(test)]
mod tests {
    use super::*;

    #[test]
    fn each_position_is_told_where_there_is_room() {
        let few = Columns::of(Span { first: 1, last: 4 }, 4);
        assert_eq!(few.told().collect::<Vec<usize>>(), [1, 2, 3, 4]);
    }

    #[test]
    fn told_positions_keep_apart() {
        let many = Columns::of(
            Span {
                first: 59,
                last: 87,
            },
            255,
        );
        assert_eq!(
            many.told().collect::<Vec<usize>>(),
            [59, 65, 70, 75, 80, 85]
        );
    }

    #[test]
    fn all_strips_fit_on_a_telephone() {
        for moves in 1..=255 {
            for span in Span::parts(moves) {
                assert!(Columns::of(span, moves).right() <= GUTTER + PLOT);
            }
        }
    }
}
