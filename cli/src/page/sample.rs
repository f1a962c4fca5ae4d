//! A small job for the tests of the page: a gate is lifted, dropped for nothing, and lifted again.

use super::Contents;
use crate::answer::{Claim, Course, Move, Outcome, Shortened, Tally, Way};
use crate::task::{Action, Fact, Task, Variable};

pub struct Sample {
    pub task: Task,
    pub list: Vec<u32>,
    pub shortened: Shortened,
    pub course: Course,
}

impl Sample {
    /// Moves 1 and 2 are struck, 3 is marked and 4 is kept. The lamp never changes.
    pub fn new() -> Sample {
        Sample {
            task: job(),
            list: vec![0, 1, 2, 3],
            shortened: Shortened {
                way: Way::Licence(Claim::Least),
                moves: vec![
                    told(7, Outcome::Struck, tally(0, 0)),
                    told(3, Outcome::Struck, tally(0, 0)),
                    told(1000, Outcome::Marked, tally(1000, 1)),
                    told(2, Outcome::Kept, tally(1002, 2)),
                ],
                list: vec![2, 3],
                lodged: tally(1012, 4),
                left: tally(1002, 2),
                saved: tally(10, 2),
            },
            course: Course {
                lodged: states([0, 1, 0, 1, 1]),
                left: states([0, 0, 0, 1, 1]),
            },
        }
    }

    /// The same job with a list of no moves.
    pub fn empty() -> Sample {
        let nothing = tally(0, 0);
        Sample {
            list: Vec::new(),
            shortened: Shortened {
                way: Way::Licence(Claim::Least),
                moves: Vec::new(),
                list: Vec::new(),
                lodged: nothing,
                left: nothing,
                saved: nothing,
            },
            course: Course {
                lodged: states([0]),
                left: states([0]),
            },
            ..Sample::new()
        }
    }

    pub fn contents(&self) -> Contents<'_> {
        Contents {
            title: "Lock 7",
            task: &self.task,
            list: &self.list,
            shortened: &self.shortened,
            course: &self.course,
            claim: "No valid striking leaves a cheaper list.",
            words: "1 2 4 # a sheet\n",
            version: "hollchiku 1.0",
        }
    }

    /// Gives every part of the job the same name.
    pub fn rename_all(&mut self, name: &str) {
        for variable in &mut self.task.variables {
            variable.name = name.to_string();
            variable.values.fill(name.to_string());
        }
        for action in &mut self.task.actions {
            action.name = name.to_string();
        }
    }
}

fn tally(price: u32, moves: u32) -> Tally {
    Tally { price, moves }
}

fn told(price: u32, outcome: Outcome, left: Tally) -> Move {
    Move {
        price,
        outcome,
        left,
    }
}

fn job() -> Task {
    let [shut, open] = [0, 1].map(|value| Fact { variable: 0, value });
    let lamp_off = Fact {
        variable: 1,
        value: 0,
    };
    Task {
        variables: vec![
            variable("gate", &["shut", "open"]),
            variable("lamp", &["off", "on"]),
        ],
        goal: vec![open],
        actions: vec![
            action("lift", 7, &[], &[open]),
            action("drop", 3, &[open], &[shut]),
            action("lift & dim", 1000, &[shut], &[open, lamp_off]),
            action("look", 2, &[], &[]),
        ],
    }
}

fn variable(name: &str, values: &[&str]) -> Variable {
    Variable {
        name: name.to_string(),
        values: values.iter().map(|value| value.to_string()).collect(),
        start: 0,
    }
}

fn action(name: &str, price: u32, needs: &[Fact], effects: &[Fact]) -> Action {
    Action {
        name: name.to_string(),
        price,
        needs: needs.to_vec(),
        effects: effects.to_vec(),
    }
}

/// States in which only the gate moves.
fn states<const N: usize>(gate: [u32; N]) -> Vec<Vec<u32>> {
    gate.map(|value| vec![value, 0]).to_vec()
}
