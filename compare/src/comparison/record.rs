//! The record of a run: what it has tried, what was answered, and how many answers differed.

use super::report;
use crate::rules::license::Grounds;
use crate::rules::{Claim, Licensed};
use std::collections::{BTreeMap, BTreeSet};
use std::time::Instant;

/// After so many differences the run ends.
const MOST_DIFFERENCES: usize = 5;

#[derive(Default)]
pub struct Record {
    pub differences: usize,
    /// When the run ends, unless what there is to try ends it.
    pub end: Option<Instant>,
    /// The cases tried of each kind, by its name. A run must try each kind that is expected: where a
    /// kind says what its cases are refused for, a case of it shows that cause, which its number may
    /// share with others.
    counts: BTreeMap<&'static str, usize>,
    pub expected_kinds: Vec<&'static str>,
    /// The answers seen of each service and of each program, by its name, and those that the run
    /// must show: one that never saw one shows too little.
    answers: BTreeMap<&'static str, BTreeMap<u64, usize>>,
    pub expected: Vec<(&'static str, &'static [u64])>,
    /// The places that each service's refusals of each number were seen at, and the refusals that
    /// the run must show, at how many places at least.
    places: BTreeMap<(&'static str, u64), BTreeSet<u64>>,
    pub expected_places: Vec<((&'static str, u64), usize)>,
    /// The claims about each kind of long lists.
    claims: BTreeMap<String, Claims>,
}

impl Record {
    pub fn is_over(&self) -> bool {
        let is_late = self.end.is_some_and(|end| Instant::now() >= end);
        is_late || self.differences >= MOST_DIFFERENCES
    }

    /// Counts a case of the kind, and its answer as one of the service or program.
    pub fn count(&mut self, kind: &'static str, name: &'static str, answer: u64) {
        *self.counts.entry(kind).or_default() += 1;
        self.note_answer(name, answer);
    }

    pub fn note_answer(&mut self, name: &'static str, answer: u64) {
        let seen = self.answers.entry(name).or_default();
        *seen.entry(answer).or_default() += 1;
    }

    /// Notes the place of a service's refusal of this number, if the run must show many of them.
    pub fn note_place(&mut self, name: &'static str, number: u64, place: u64) {
        let refusal = (name, number);
        if self.expected_places.iter().any(|(it, _)| *it == refusal) {
            self.places.entry(refusal).or_default().insert(place);
        }
    }

    pub fn claims_about(&mut self, kind: &str) -> &mut Claims {
        self.claims.entry(kind.to_string()).or_default()
    }

    /// Counts a difference and prints its title; the case is to be printed behind it.
    pub fn differ(&mut self, title: &str) {
        self.differences += 1;
        println!("\n# difference {}: {title}", self.differences);
    }

    /// Prints what was tried, and answers whether nothing differed and everything expected was seen.
    pub fn finish(&self) -> bool {
        for (kind, &count) in &self.counts {
            print_count(kind, count);
        }
        let answers = self.expected.iter();
        let mut unseen: Vec<String> = answers.flat_map(|it| self.print_answers(it)).collect();
        for ((name, number), least) in &self.expected_places {
            let places = self.places.get(&(*name, *number)).map_or(0, BTreeSet::len);
            println!("places of {name}, refusal {number}: {places}, {least} are enough");
            if places < *least {
                unseen.push(format!("at too few places: {name}, refusal {number}"));
            }
        }
        for kind in &self.expected_kinds {
            if !self.counts.contains_key(kind) {
                unseen.push(format!("never tried: {kind}"));
            }
        }
        for (kind, claims) in &self.claims {
            claims.print(kind);
        }
        // A run that differences have ended has failed anyway.
        if self.differences == 0 {
            unseen.iter().for_each(|it| println!("{it}"));
        }
        let tried: usize = self.counts.values().sum();
        println!("compared {tried} cases, {} differences", self.differences);
        self.differences == 0 && unseen.is_empty()
    }

    /// Answers with what was not seen.
    fn print_answers(&self, (name, answers): &(&str, &[u64])) -> Option<String> {
        let seen = self.answers.get(name);
        let times = |answer: &u64| *seen.and_then(|seen| seen.get(answer)).unwrap_or(&0);
        let listed = answers.iter().map(|it| format!("{it}: {}", times(it)));
        println!(
            "answers of {name}: {}",
            listed.collect::<Vec<_>>().join(", ")
        );
        let unseen = answers.iter().copied().filter(|it| times(it) == 0);
        let unseen: Vec<u64> = unseen.collect();
        let text = || format!("never answered by {name}: {}", report::listed(&unseen));
        (!unseen.is_empty()).then(text)
    }
}

pub fn print_count(kind: &str, count: usize) {
    println!("{kind:<42} {count:>9}");
}

/// How often each claim of the licence came out.
#[derive(Default)]
pub struct Claims {
    licences: usize,
    least: usize,
    irreducible: usize,
    /// Of the irreducible ones: the cheaper elimination had left unmarked steps.
    left_unmarked: usize,
    /// Of those: the exact reduction struck more.
    struck_more: usize,
    open: usize,
}

impl Claims {
    pub fn count(&mut self, Licensed { claim, kept }: &Licensed, grounds: &Grounds) {
        self.licences += 1;
        match claim {
            Claim::Least => self.least += 1,
            Claim::Open(_) => self.open += 1,
            Claim::Irreducible => {
                self.irreducible += 1;
                self.left_unmarked += usize::from(grounds.unmarked > 0);
                self.struck_more += usize::from(kept.actions.len() < grounds.steps.len());
            }
        }
    }

    /// Whether all claims were seen, and the exact reduction striking more.
    pub fn show_all(&self) -> bool {
        [self.least, self.struck_more, self.open]
            .iter()
            .all(|&seen| seen > 0)
    }

    /// One line for lists of this kind.
    pub fn print(&self, kind: &str) {
        let Claims {
            licences,
            least,
            irreducible,
            left_unmarked,
            struck_more,
            open,
        } = self;
        println!(
            "claims about {kind}: {licences} licences, least: {least}, irreducible: {irreducible} \
             (left unmarked: {left_unmarked}, more struck: {struck_more}), open: {open}"
        );
    }
}
