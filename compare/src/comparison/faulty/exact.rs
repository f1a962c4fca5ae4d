//! Exact reductions with one fault each.

use super::{fault, of_output, Fault};
use crate::cases::{going, Answer, Memory, Service};
use crate::rules::{self, steps_of, Cause, Kept, Lodged, Refusal, Way, MAX_UNMARKED};
use std::cmp::Reverse;

pub fn faults() -> Vec<Fault> {
    let mut faults = Vec::from(of_output(Service::Exact));
    faults.extend(STEPS.map(|(name, steps)| fault(name, move |lent| keeping(lent, steps))));
    faults.extend(WAYS.map(|(name, way)| fault(name, move |lent| by(lent, way))));
    faults.push(fault("writes past the kept part", |lent| {
        let mut answer = by(lent, rules::exact);
        answer.first.push(0);
        answer
    }));
    faults
}

/// The right checks, but other steps are kept.
const STEPS: [(&str, fn(&Lodged) -> Vec<usize>); 6] = [
    ("hands the lodged plan back", all_steps),
    ("strikes everything", |_| Vec::new()),
    ("is greedy", |lodged| lodged.greedily_eliminated()),
    ("decides at one step alone", one_struck),
    ("breaks ties the other way", |lodged| {
        least_by(lodged, |kept| (lodged.counts(kept), Reverse(kept.clone())))
    }),
    ("compares costs alone", |lodged| {
        least_by(lodged, |kept| (lodged.counts(kept).0, kept.clone()))
    }),
];

const WAYS: [(&str, Way<Kept>); 3] = [
    (
        "refuses 20 unmarked steps",
        |words, plan, output| match Lodged::check(words, plan, &[output])?.unmarked() {
            MAX_UNMARKED => Err(Cause::Unmarked.at(MAX_UNMARKED)),
            _ => rules::exact(words, plan, output),
        },
    ),
    ("counts no marks", |words, plan, output| {
        let kept = rules::exact(words, plan, output)?;
        match plan.len() > MAX_UNMARKED {
            true => Err(Cause::Unmarked.at(plan.len())),
            false => Ok(kept),
        }
    }),
    ("tells the lodged plan's cost", |words, plan, output| {
        let kept = rules::exact(words, plan, output)?;
        let cost = Lodged::check(words, plan, &[])?.cost();
        Ok(Kept { cost, ..kept })
    }),
];

/// The most steps of a plan whose reductions are all gone through; the answer about a longer one
/// has no fault.
const FEW_STEPS: usize = 10;

fn by(lent: &Memory, way: Way<Kept>) -> Answer {
    Answer::of(Service::Exact, going(lent, way, Answer::keeping))
}

fn keeping(lent: &Memory, steps: fn(&Lodged) -> Vec<usize>) -> Answer {
    let lodged = Lodged::check_unmarked(&lent.words, &lent.plan, lent.first.len());
    let kept: Result<Kept, Refusal> = lodged.map(|lodged| lodged.kept(steps));
    Answer::of(Service::Exact, kept.map(Answer::keeping))
}

fn all_steps(lodged: &Lodged) -> Vec<usize> {
    (0..lodged.actions.len()).collect()
}

/// The first step that can be struck alone, if there is one, and no other.
fn one_struck(lodged: &Lodged) -> Vec<usize> {
    let steps = 0..lodged.actions.len();
    let all_but = |struck| steps.clone().map(|step| step != struck).collect::<Vec<_>>();
    let mut reductions = steps.clone().map(all_but);
    let valid = reductions.find(|kept| lodged.is_valid(kept));
    valid.map_or(all_steps(lodged), |kept| steps_of(&kept))
}

fn least_by<K: Ord>(lodged: &Lodged, key: impl Fn(&Vec<bool>) -> K) -> Vec<usize> {
    if lodged.actions.len() > FEW_STEPS {
        return lodged.least_by_states();
    }
    let least = lodged.valid_reductions().min_by_key(key);
    least.map_or(Vec::new(), |kept| steps_of(&kept))
}
