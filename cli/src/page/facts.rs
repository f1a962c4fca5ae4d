//! What stands in a cell of needs, effects or changes.

use super::escape::Name;
use crate::task::{Fact, Task};

/// What is written where there is nothing to tell.
const NOTHING: &str = "nothing";

/// A variable at a value.
pub fn fact(task: &Task, fact: Fact) -> String {
    format!(
        "{}: {}",
        Name(task.variable_of(fact)),
        Name(task.value_of(fact))
    )
}

/// What an effect changes in a state.
pub fn change(task: &Task, effect: Fact, before: &[u32]) -> String {
    let old = Fact {
        value: before[effect.variable] as usize,
        ..effect
    };
    let (variable, new) = (Name(task.variable_of(effect)), Name(task.value_of(effect)));
    if old == effect {
        format!("{variable}: stays {new}")
    } else {
        format!("{variable}: {} → {new}", Name(task.value_of(old)))
    }
}

/// A block for each text, so that a long one is seen to end where the next begins.
pub fn blocks(texts: impl Iterator<Item = String>) -> String {
    let blocks: String = texts.map(|text| format!("<div>{text}</div>")).collect();
    if blocks.is_empty() {
        NOTHING.to_string()
    } else {
        blocks
    }
}

#[cfg(test)]
mod tests {
    use super::super::sample::Sample;
    use super::*;

    const OPEN: Fact = Fact {
        variable: 0,
        value: 1,
    };

    #[test]
    fn a_fact_has_both_names() {
        assert_eq!(
            fact(&Sample::new().task, OPEN),
            "<bdi>gate</bdi>: <bdi>open</bdi>"
        );
    }

    #[test]
    fn a_change_has_both_values_and_what_stays_has_one() {
        let task = Sample::new().task;
        assert_eq!(
            change(&task, OPEN, &[0, 0]),
            "<bdi>gate</bdi>: <bdi>shut</bdi> → <bdi>open</bdi>"
        );
        assert_eq!(
            change(&task, OPEN, &[1, 0]),
            "<bdi>gate</bdi>: stays <bdi>open</bdi>"
        );
    }

    #[test]
    fn each_text_has_a_block() {
        assert_eq!(
            blocks(["a", "b"].map(String::from).into_iter()),
            "<div>a</div><div>b</div>"
        );
        assert_eq!(blocks(std::iter::empty()), "nothing");
    }

    #[test]
    fn nasty_names_are_escaped() {
        let mut sample = Sample::new();
        sample.rename_all("<i>");
        assert_eq!(
            fact(&sample.task, OPEN),
            "<bdi>&lt;i&gt;</bdi>: <bdi>&lt;i&gt;</bdi>"
        );
        assert!(!change(&sample.task, OPEN, &[0, 0]).contains("<i>"));
    }
}
