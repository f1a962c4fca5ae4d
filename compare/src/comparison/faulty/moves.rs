//! The moves of a plan with one fault each.

use super::{fault, Fault};
use crate::cases::{Answer, Memory, Service};
use crate::rules::{moves, Lodged, Moves, Refusal};

pub fn faults() -> Vec<Fault> {
    let faults = FAULTS.map(|(name, told)| {
        fault(name, move |lent| {
            Answer::of(Service::Moves, told(lent).map(Answer::moving))
        })
    });
    Vec::from(faults)
}

type Told = fn(&Memory) -> Result<Moves, Refusal>;

const FAULTS: [(&str, Told); 5] = [
    ("refuses moves of a plan that is not valid", |lent| {
        Lodged::check(&lent.words, &lent.plan, &[])?;
        right(lent)
    }),
    ("shows what is kept as marked", |lent| {
        moves(&lent.words, &lent.plan, &lent.kept, &lent.kept)
    }),
    ("swaps kept and struck", |lent| {
        let struck: Vec<u64> = lent.kept.iter().map(|word| !word).collect();
        moves(&lent.words, &lent.plan, &struck, &lent.marked)
    }),
    ("tallies up to the move before", |lent| {
        let mut told = right(lent)?;
        for at in (1..told.rows.len()).rev() {
            let before = told.rows[at - 1];
            told.rows[at][FLAGS_END..].copy_from_slice(&before[FLAGS_END..]);
        }
        Ok(told)
    }),
    ("saves what is kept", |lent| {
        let mut told = right(lent)?;
        if let Some(&[.., cost, steps, _, _]) = told.rows.last() {
            told.saved = [cost as usize, steps as usize];
        }
        Ok(told)
    }),
];

/// Where the tallies of a row begin.
const FLAGS_END: usize = 3;

fn right(lent: &Memory) -> Result<Moves, Refusal> {
    moves(&lent.words, &lent.plan, &lent.kept, &lent.marked)
}
