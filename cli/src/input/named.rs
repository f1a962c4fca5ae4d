//! A task with a planner's names.

use crate::planner::Names;
use crate::task::Task;
use std::collections::HashSet;

/// What a thing is called whose name is empty.
const NAMELESS: &str = "(no name)";

/// Gives a task these names. A job tells its parts apart by them, so they are made distinct.
pub fn named(mut task: Task, names: Names) -> Task {
    for (variable, name) in task.variables.iter_mut().zip(distinct(names.variables)) {
        variable.name = name;
    }
    for (variable, values) in task.variables.iter_mut().zip(names.values) {
        variable.values = distinct(values);
    }
    for (action, name) in task.actions.iter_mut().zip(distinct(names.actions)) {
        action.name = name;
    }
    task
}

/// Names of which a later one that was there already gets a number behind it.
fn distinct(names: Vec<String>) -> Vec<String> {
    let mut taken = HashSet::new();
    let free = |name: String| {
        let name = shown(&name);
        let numbered = (2..).map(|number| format!("{name} ({number})"));
        let mut all = std::iter::once(name.clone()).chain(numbered);
        let free = all.find(|it| taken.insert(it.clone()));
        free.unwrap_or(name)
    };
    names.into_iter().map(free).collect()
}

/// A name that a text can hold.
fn shown(name: &str) -> String {
    if name.is_empty() {
        return NAMELESS.to_string();
    }
    let shown = |it: char| {
        if it.is_control() {
            char::REPLACEMENT_CHARACTER
        } else {
            it
        }
    };
    name.chars().map(shown).collect()
}

#[cfg(test)]
mod tests {
    use super::*;

    #[test]
    fn names_are_told_apart() {
        let names = ["a", "a", "a (2)", "", "b\u{1b}", "a"].map(String::from);
        let told = ["a", "a (2)", "a (2) (2)", NAMELESS, "b\u{fffd}", "a (3)"];
        assert_eq!(distinct(names.to_vec()), told);
    }
}
