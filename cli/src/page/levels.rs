//! The levels of a picture: one for each value that is shown, and its label.

use super::escape::Isolated;
use crate::task::Variable;

/// The room of a label, in the units of `breadth`.
const ROOM: usize = 24;

/// What stands for the rest of a name that is cut.
const MORE: char = '…';

/// The distance of two levels: where there are few, where there are several, where there are many.
const FAR: usize = 20;
const NEAR: usize = 16;
const NEAREST: usize = 12;

/// Values at heights, the first value lowest.
pub struct Levels {
    values: Vec<u32>,
    distance: usize,
}

impl Levels {
    pub fn of(values: impl Iterator<Item = u32>) -> Levels {
        let mut values: Vec<u32> = values.collect();
        values.sort_unstable();
        values.dedup();
        let distance = match values.len() {
            0..=4 => FAR,
            5..=12 => NEAR,
            _ => NEAREST,
        };
        Levels { values, distance }
    }

    pub fn values(&self) -> &[u32] {
        &self.values
    }

    pub fn height(&self) -> usize {
        self.values.len() * self.distance
    }

    /// How far below the top a value's level is.
    pub fn depth(&self, value: u32) -> usize {
        let below = self.values.partition_point(|&other| other < value);
        (self.height() - self.distance / 2).saturating_sub(below * self.distance)
    }

    /// Whether there are too many for labels of the usual size.
    pub fn is_dense(&self) -> bool {
        self.distance == NEAREST
    }
}

/// How the levels of a variable are labelled, the same in all its spans.
pub struct Labels<'a> {
    variable: &'a Variable,
    /// Where a name is too long it is cut. The number of the value then tells which it is.
    numbered: bool,
}

impl<'a> Labels<'a> {
    pub fn of(variable: &'a Variable, levels: &Levels) -> Labels<'a> {
        let fits = |&value: &u32| breadth_of(&variable.values[value as usize]) <= ROOM;
        Labels {
            variable,
            numbered: !levels.values.iter().all(fits),
        }
    }

    pub fn is_numbered(&self) -> bool {
        self.numbered
    }

    /// A label, ready for the picture.
    pub fn label(&self, value: u32) -> String {
        let name = &self.variable.values[value as usize];
        if self.numbered {
            let number = format!("{value} ");
            let cut = cut(name, ROOM.saturating_sub(breadth_of(&number)));
            format!("{number}{}", Isolated(&cut))
        } else {
            Isolated(name).to_string()
        }
    }
}

/// As much of a name as there is room for.
fn cut(name: &str, room: usize) -> String {
    if breadth_of(name) <= room {
        return name.to_string();
    }
    let mut taken = breadth(MORE);
    let fits = |&character: &char| {
        taken += breadth(character);
        taken <= room
    };
    name.chars().take_while(fits).chain([MORE]).collect()
}

fn breadth_of(text: &str) -> usize {
    text.chars().map(breadth).sum()
}

/// How broad a character may be, in halves of a usual small letter. The font is not known, so this
/// is a careful guess.
fn breadth(character: char) -> usize {
    match character {
        'M' | 'W' | 'm' | 'w' | '@' | '%' | '—' | MORE | '\u{1100}'.. => 4,
        _ if character.is_uppercase() => 3,
        _ => 2,
    }
}

#[cfg(test)]
mod tests {
    use super::*;

    fn variable(values: &[&str]) -> Variable {
        Variable {
            name: "v".to_string(),
            values: values.iter().map(|value| value.to_string()).collect(),
            start: 0,
        }
    }

    #[test]
    fn only_values_that_occur_have_levels() {
        let levels = Levels::of([7, 2, 7, 200].into_iter());
        assert_eq!(levels.values(), [2, 7, 200]);
        assert_eq!(levels.height(), 60);
        assert_eq!([2, 7, 200].map(|value| levels.depth(value)), [50, 30, 10]);
    }

    #[test]
    fn many_levels_lie_closer() {
        let levels = Levels::of(0..60);
        assert!(levels.is_dense());
        assert!(levels.height() < 800);
    }

    #[test]
    fn short_names_are_labels() {
        let variable = variable(&["shut", "<open>"]);
        let labels = Labels::of(&variable, &Levels::of(0..2));
        assert!(!labels.is_numbered());
        assert_eq!(labels.label(1), "\u{2068}&lt;open&gt;\u{2069}");
    }

    #[test]
    fn long_names_are_cut_and_told_apart_by_number() {
        let variable = variable(&["the gate stands open", "the gate stands shut", "ok"]);
        let labels = Labels::of(&variable, &Levels::of(0..3));
        assert!(labels.is_numbered());
        let wanted = [
            "0 \u{2068}the gate…\u{2069}",
            "1 \u{2068}the gate…\u{2069}",
            "2 \u{2068}ok\u{2069}",
        ];
        assert_eq!([0, 1, 2].map(|value| labels.label(value)), wanted);
        assert!(!Labels::of(&variable, &Levels::of(2..3)).is_numbered());
    }

    #[test]
    fn a_cut_leaves_no_half_entity() {
        let variable = variable(&["<<<<<<<<<<<<<<<<<<<<"]);
        let label = Labels::of(&variable, &Levels::of(0..1)).label(0);
        assert!(label.ends_with("&lt;…\u{2069}"));
    }
}
