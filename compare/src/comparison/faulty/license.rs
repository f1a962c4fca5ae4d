//! Licences with one fault each.

use super::{fault, of_output, Fault};
use crate::cases::{Answer, Memory, Service};
use crate::rules::license::{Grounds, Ways, BY_SEARCH};
use crate::rules::{has, mask_of, Claim, Kept, Licensed, Lodged, Refusal, MAX_UNMARKED};

pub fn faults() -> Vec<Fault> {
    let mut faults = Vec::from(of_output(Service::License));
    faults.extend(WAYS.map(|(name, ways)| {
        fault(name, move |lent| {
            let licence = ways.license(&lent.words, &lent.plan, lent.first.len());
            answer(licence.map(|(licensed, _)| licensed))
        })
    }));
    faults.extend(
        CHANGES.map(|(name, change)| fault(name, move |lent| answer(changed(lent, change)))),
    );
    faults.push(fault("refuses over 20 unmarked", |lent| {
        let lodged = Lodged::check_unmarked(&lent.words, &lent.plan, lent.first.len());
        answer(lodged.and_then(|_| changed(lent, |_, _, _| ())))
    }));
    faults.push(fault("leaves struck steps behind", write_struck));
    faults
}

fn answer(licensed: Result<Licensed, Refusal>) -> Answer {
    Answer::of(Service::License, licensed.map(Answer::licensed))
}

const fn within(limits: [usize; 2]) -> Ways {
    Ways {
        limits,
        ..BY_SEARCH
    }
}

const fn taking(cheaper: fn(&Lodged) -> Vec<usize>) -> Ways {
    Ways {
        cheaper,
        ..BY_SEARCH
    }
}

const WAYS: [(&str, Ways); 9] = [
    (
        "takes the dearer elimination",
        taking(|lodged| taken(lodged, |plain, greedy| greedy > plain)),
    ),
    ("takes elimination's", taking(|lodged| lodged.eliminated())),
    (
        "takes greedy elimination's",
        taking(|lodged| lodged.greedily_eliminated()),
    ),
    (
        "takes greedy's of two alike",
        taking(|lodged| taken(lodged, |plain, greedy| greedy <= plain)),
    ),
    (
        "compares costs alone",
        taking(|lodged| taken(lodged, |plain, greedy| greedy.0 < plain.0)),
    ),
    (
        "takes at most 19 unmarked",
        within([MAX_UNMARKED - 1, MAX_UNMARKED]),
    ),
    (
        "takes up to 21 unmarked",
        within([MAX_UNMARKED + 1, MAX_UNMARKED]),
    ),
    (
        "takes at most 19 left unmarked",
        within([MAX_UNMARKED, MAX_UNMARKED - 1]),
    ),
    (
        "takes up to 21 left unmarked",
        within([MAX_UNMARKED, MAX_UNMARKED + 1]),
    ),
];

/// A cost and a number of steps.
type Counts = (usize, usize);

/// Whether greedy elimination's list is taken is told by the counts of elimination's and by its own.
fn taken(lodged: &Lodged, takes_greedy: fn(Counts, Counts) -> bool) -> Vec<usize> {
    let [plain, greedy] = [lodged.eliminated(), lodged.greedily_eliminated()];
    match takes_greedy(lodged.tally(&plain), lodged.tally(&greedy)) {
        true => greedy,
        false => plain,
    }
}

/// Changes the right licence.
type Change = fn(&Lodged, &Grounds, &mut Licensed);

const CHANGES: [(&str, Change); 5] = [
    ("reduces no further", |lodged, grounds, licensed| {
        if licensed.claim == Claim::Irreducible {
            licensed.kept = lodged.keeping(&grounds.steps);
        }
    }),
    ("masks what is left", |_, grounds, licensed| {
        let Kept { mask, .. } = licensed.kept;
        let places = 0..grounds.steps.len();
        licensed.kept.mask = mask_of(places.filter(|&it| has(&mask, grounds.steps[it])));
    }),
    ("counts the lodged marks", |lodged, grounds, licensed| {
        let marked = lodged.marked();
        let steps = grounds.steps.iter();
        let unmarked = steps.filter(|&&step| !has(&marked, step)).count();
        if licensed.claim != Claim::Least && unmarked > MAX_UNMARKED {
            *licensed = lodged.licensed(Claim::Open(unmarked), &grounds.steps);
        }
    }),
    ("tells all unmarked as open", |lodged, _, licensed| {
        if let Claim::Open(count) = &mut licensed.claim {
            *count = lodged.unmarked();
        }
    }),
    ("claims that the rest is least", |_, _, licensed| {
        if licensed.claim == Claim::Irreducible {
            licensed.claim = Claim::Least;
        }
    }),
];

fn changed(lent: &Memory, change: Change) -> Result<Licensed, Refusal> {
    let (words, plan) = (&lent.words, &lent.plan);
    let (mut licensed, grounds) = BY_SEARCH.license(words, plan, lent.first.len())?;
    change(&Lodged::check(words, plan, &[])?, &grounds, &mut licensed);
    Ok(licensed)
}

/// What an elimination left, or the lodged plan, was in the output before.
fn write_struck(lent: &Memory) -> Answer {
    let licence = BY_SEARCH.license(&lent.words, &lent.plan, lent.first.len());
    let left = licence
        .as_ref()
        .map_or(&[][..], |(_, grounds)| &grounds.steps);
    let left: Vec<u32> = left.iter().map(|&step| lent.plan[step]).collect();
    let mut answer = answer(licence.map(|(licensed, _)| licensed));
    answer.first.extend(left.iter().skip(answer.first.len()));
    answer
}
