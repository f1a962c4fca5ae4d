//! The sheets of document 01's worked lists, and those at its limits. Sheet P is the document's,
//! word by word.

use crate::makers::{action, fact, Fact, Task};

/// Its actions are 0 lift, 1 drain, 2 drop, 3 lamp; its variables gate, basin, lamp.
pub const SHEET_P: [u32; 41] = [
    1, 3, 4, 41, // edition, variables, actions, words
    18, 3, 21, 3, 24, 2, 26, 4, 30, 4, 34, 4, 38, 3, // pairs
    2, 2, 2, // domain sizes
    0, 0, 0, // starting values
    0, 257, // goal
    5, 1, 0, 1, // lift
    2, 1, 1, 257, // drain
    5, 1, 1, 0, // drop
    1, 0, 513, // lamp
];
pub const LAMP: u32 = 3;
/// Where the lamp's cost stands in sheet P.
const LAMP_COST: usize = 38;

pub fn with_lamp_cost(cost: u32) -> [u32; 41] {
    let mut words = SHEET_P;
    words[LAMP_COST] = cost;
    words
}

/// A variable and its value.
type Pair = (usize, usize);

fn facts(pairs: &[Pair]) -> Vec<Fact> {
    let facts = pairs.iter();
    facts
        .map(|&(variable, value)| fact(variable, value))
        .collect()
}

/// A sheet of variables that have two values and start at 0. Each action has its cost, what it needs
/// and what it sets.
fn sheet(variables: usize, goal: &[Pair], actions: &[(u32, &[Pair], &[Pair])]) -> Vec<u32> {
    let actions = actions.iter();
    let actions = actions.map(|&(cost, needs, sets)| action(cost, facts(needs), facts(sets)));
    Task::from_zero(vec![2; variables], facts(goal), actions.collect()).words()
}

/// Sheet P with the goal gate 0 alone.
pub fn gate_alone() -> Vec<u32> {
    let [gate, basin, lamp] = [0, 1, 2];
    let lift = (5, &[(gate, 0)][..], &[(gate, 1)][..]);
    let drain = (2, &[(gate, 1)][..], &[(basin, 1)][..]);
    let drop = (5, &[(gate, 1)][..], &[(gate, 0)][..]);
    let lamp = (1, &[][..], &[(lamp, 1)][..]);
    sheet(3, &[(gate, 0)], &[lift, drain, drop, lamp])
}

/// The sheet of list 7: two ways to give one variable its goal value.
pub fn two_ways() -> Vec<u32> {
    let set = &[(0, 1)];
    sheet(1, set, &[(1, &[], set), (9, &[], set)])
}

/// The sheet of list 8: u, both, v.
pub fn u_and_v() -> Vec<u32> {
    let (u, v) = ((0, 1), (1, 1));
    sheet(
        2,
        &[u, v],
        &[(4, &[], &[u]), (6, &[], &[u, v]), (4, &[], &[v])],
    )
}

/// One variable of one value, no goal, and one action of the greatest cost without facts.
pub fn dearest() -> Vec<u32> {
    let actions = vec![action(1_000_000, vec![], vec![])];
    Task::from_zero(vec![1], vec![], actions).words()
}

/// So many gates that are lifted one by one and then dropped together. Two of them are the fewest
/// steps that neither elimination strikes from, though something can be struck.
pub fn tied_gates(gates: usize) -> Vec<u32> {
    let all = |value| (0..gates).map(|gate| fact(gate, value)).collect();
    let lifts = (0..gates).map(|gate| action(1, vec![], vec![fact(gate, 1)]));
    let actions = lifts.chain([action(1, all(1), all(0))]).collect();
    Task::from_zero(vec![2; gates], all(0), actions).words()
}

/// A step that gives the goal, and two others that give it together at the same price.
pub fn alike_in_cost() -> Vec<u32> {
    let (goal, between) = ((0, 1), (1, 1));
    let two = [(1, &[][..], &[between][..]), (1, &[between], &[goal])];
    sheet(2, &[goal], &[(2, &[], &[goal]), two[0], two[1]])
}

/// Actions 0 to 2 are u, both and v; 3 gives w, and so do 4 and 5 together. Of u, both and v in
/// turn elimination leaves a list that is cheaper by one and shorter by one, and of the ways to w
/// greedy elimination does.
pub fn even() -> Vec<u32> {
    let (u, v, w, between) = ((0, 1), (1, 1), (2, 1), (3, 1));
    let covers = [(1, &[][..], &[u][..]), (2, &[], &[u, v]), (2, &[], &[v])];
    let ways = [
        (1, &[][..], &[w][..]),
        (1, &[], &[between]),
        (1, &[between], &[w]),
    ];
    sheet(4, &[u, v, w], &[covers, ways].concat())
}

/// A gate that is to be open, and its basin empty. Action 0 opens the gate and fills the basin, 1
/// empties the basin, 2 shuts the gate and fills the basin, and 3 does what is asked for: 1 and 3
/// need a full basin, and 2 an open gate.
pub fn kept_for_later() -> Vec<u32> {
    let [shut, open] = [0, 1].map(|value| (0, value));
    let [full, empty] = [0, 1].map(|value| (1, value));
    let actions: [(u32, &[Pair], &[Pair]); 4] = [
        (1, &[], &[open, full]),
        (2, &[full], &[empty]),
        (3, &[open], &[shut, full]),
        (1, &[full], &[open, empty]),
    ];
    sheet(2, &[open, empty], &actions)
}
