//! Licences of lists that come to each claim with 20 unmarked steps and with 21.

use super::sheets::{alike_in_cost, even, kept_for_later, tied_gates, two_ways, u_and_v};
use super::{kept, list, short, Worked};
use crate::cases::{Answer, Case, Service};
use crate::rules::{Claim, Kept, Licensed};
use std::iter::repeat_n;

pub fn cases() -> Vec<Worked> {
    let mut cases = irreducible();
    cases.extend(of_tied_gates());
    cases.extend(of_kept_for_later());
    cases
}

fn licence(words: &[u32], plan: &[u32], claim: Claim, kept: Kept) -> Case {
    let case = Case::fitting(Service::License, words, plan, [plan.len(), 0]);
    case.due(Answer::licensed(Licensed { claim, kept }))
}

/// So many steps of an action, and others behind them.
fn repeated(action: u32, times: usize, others: &[u32]) -> Vec<u32> {
    let others = others.iter().copied();
    repeat_n(action, times).chain(others).collect()
}

/// Of each list 21 steps or more are unmarked, and the cheaper elimination leaves marked ones
/// alone. It is greedy elimination of list 7 and of the one in which both cost the same, and
/// elimination of list 8 and of the one in which both have as many steps, too.
fn irreducible() -> Vec<Worked> {
    let irreducible = |words: &[u32], plan: &[u32], mask, cost, actions: &[u32]| {
        let left = kept(short(mask), cost, actions);
        licence(words, plan, Claim::Irreducible, left)
    };
    let list_7 = irreducible(&two_ways(), &repeated(0, 20, &[1]), 1 << 19, 1, &[0]);
    let behind_19 = repeated(0, 19, &[1, 2]);
    let list_8 = irreducible(&u_and_v(), &behind_19, 1 << 19, 6, &[1]);
    let alike_in_cost = irreducible(&alike_in_cost(), &behind_19, 1 << 18, 2, &[0]);
    let plan = repeated(3, 16, &[0, 1, 2, 3, 4, 5]);
    let alike_in_both = irreducible(&even(), &plan, 0b110010 << 16, 4, &[1, 4, 5]);
    vec![
        ("list 7, 21 unmarked", list_7),
        ("list 8, 21 unmarked", list_8),
        ("alike in cost", alike_in_cost),
        ("alike in cost and steps", alike_in_both),
    ]
}

/// Neither elimination strikes a step: without one of the lifts the drop can't be done, and the
/// other gates stay open. But all can be struck together, and none is marked. Of a gate that is
/// lifted more than once the last lift is left.
fn of_tied_gates() -> Vec<Worked> {
    let [all, nothing] = [kept(short(0b111), 3, &[0, 1, 2]), kept(short(0), 0, &[])];
    let in_all_ways = [all.clone(), all, nothing.clone()];
    let two = tied_gates(2);
    let mut cases = list("2 tied gates", &two, &[0, 1, 2], short(0), in_all_ways);
    let struck = |gates, times, claim| {
        let plan = lifts_and_drop(gates, times);
        licence(&tied_gates(gates), &plan, claim, nothing.clone())
    };
    let of_20 = |times| {
        let last_21 = ((1_u64 << 21) - 1) << (times - 1);
        let left = kept(short(last_21), 21, &lifts_and_drop(20, 1));
        let plan = lifts_and_drop(20, times);
        licence(&tied_gates(20), &plan, Claim::Open(21), left)
    };
    let irreducible = Claim::Irreducible;
    cases.extend([
        ("2 tied gates, 20 unmarked", struck(2, 18, Claim::Least)),
        ("2 tied gates, 21 unmarked", struck(2, 19, irreducible)),
        ("19 tied gates", struck(19, 1, Claim::Least)),
        ("19 tied gates, 21 unmarked", struck(19, 2, irreducible)),
        ("20 tied gates", of_20(1)),
        ("20 tied gates, 22 unmarked", of_20(2)),
    ]);
    cases
}

/// Elimination keeps action 0, without which nothing behind action 1 can be done, and then strikes
/// the steps that it was kept for, 1 and 2. Greedy elimination strikes the dearest step, 2, and
/// with it 3, which is dearer in the end. Action 3 alone is enough.
fn of_kept_for_later() -> Vec<Worked> {
    let words = kept_for_later();
    let ways = [
        kept(short(0b1001), 2, &[0, 3]),
        kept(short(0b0011), 3, &[0, 1]),
        kept(short(0b1000), 1, &[3]),
    ];
    let mut cases = list("kept for later", &words, &[0, 1, 2, 3], short(0), ways);
    let last = |times, claim| {
        let plan = repeated(0, times, &[1, 2, 3]);
        let left = kept(short(1 << (plan.len() - 1)), 1, &[3]);
        licence(&words, &plan, claim, left)
    };
    cases.extend([
        ("kept for later, 20 unmarked", last(17, Claim::Least)),
        ("kept for later, 21 unmarked", last(18, Claim::Irreducible)),
    ]);
    cases
}

/// The first gate is lifted so many times, and each other one once.
fn lifts_and_drop(gates: usize, times: usize) -> Vec<u32> {
    let others: Vec<u32> = (1..=gates as u32).collect();
    repeated(0, times, &others)
}
