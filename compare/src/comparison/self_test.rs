//! Tests the comparison itself, without the library: the ways of finding the exact reduction are
//! held to each other, and so are the ways of finding marks and licences; the claims of licences
//! are tried on all reductions; services with a fault must be found out.

use super::faulty::{self, Fault};
use super::inputs::input_bytes;
use super::record::print_count;
use super::trial;
use crate::cases::worked::{self, LIST_1, SHEET_P};
use crate::cases::{kinds, Case, Memory, Service};
use crate::rules::{exact, license, license_by_search, written_by_license, written_by_shorten};
use crate::rules::{search, Lodged, MAX_UNMARKED};

/// All reductions of plans of at most so many steps are gone through.
const FEW_STEPS: usize = 12;
/// The random cases that are made; those of other services are passed over.
const CASES_FOR_WAYS: u64 = 57_000;
const CASES_FOR_LICENCES: u64 = 8_000;
const CASES_FOR_FAULTS: u64 = 5_700;

/// So many rounds and passes must be seen: a version that gives up early would not be found out.
const MANY_ROUNDS: usize = 250;
const MANY_PASSES: usize = 100;

/// What document 01 has its program print for sheet P and list 1.
const PRINTED: &str = "lodged 6 23\nmarked 1\nkept 3 12\n4 0 5\n5 1 2\n6 2 5\n";

/// What the program of the licence prints before it.
const CLAIMED: &str = "least\n";

/// Answers whether nothing failed.
pub fn run(seed: u64) -> bool {
    lines_are_as_documented()
        && ways_are_alike(seed)
        && trial::claims_hold(seed)
        && faults_are_found(seed)
}

fn lines_are_as_documented() -> bool {
    let bytes = input_bytes(&SHEET_P, &LIST_1);
    let with_claim = format!("{CLAIMED}{PRINTED}");
    let printed = [
        (written_by_shorten(&bytes, exact), PRINTED),
        (written_by_shorten(&bytes, search::exact), PRINTED),
        (written_by_license(&bytes, license), &with_claim),
        (written_by_license(&bytes, license_by_search), &with_claim),
    ];
    let mut others = printed
        .iter()
        .filter(|(it, due)| it.output != due.as_bytes());
    let other = others.next();
    if let Some((written, _)) = other {
        let lines = written.output.escape_ascii();
        println!("a program prints for list 1: {lines}");
    }
    other.is_none()
}

/// The random cases up to a number, with their numbers.
pub fn numbered_cases(seed: u64, last: u64) -> impl Iterator<Item = (u64, Case)> {
    let kinds = kinds::all();
    (1..=last).map(move |number| (number, kinds::numbered(&kinds, seed, number).1))
}

/// What was seen of the ways that are held to each other.
#[derive(Default)]
struct Ways {
    exact: usize,
    exact_among_all: usize,
    licences: usize,
    marks: usize,
    most_rounds: usize,
    most_passes: usize,
}

impl Ways {
    /// The ways that differ on a case, if some do.
    fn differing(&mut self, number: u64, case: &Case) -> Option<&'static str> {
        let Case { call, lent, .. } = case;
        if !call.service.takes_plan() {
            return None;
        }
        let is_licence = call.service == Service::License && number <= CASES_FOR_LICENCES;
        if is_licence && call.by_faster(lent) != Some(call.by_rules(lent)) {
            return Some("ways of the licence");
        }
        self.licences += usize::from(is_licence);
        let lodged = Lodged::check(&lent.words, &lent.plan, &[]).ok()?;
        if !self.marks_are_alike(&lodged) {
            return Some("ways of marks");
        }
        let is_exact = call.service == Service::Exact && lent.first.len() >= lent.plan.len();
        let is_taken = is_exact && lodged.unmarked() <= MAX_UNMARKED;
        (is_taken && !self.exact_is_alike(&lodged)).then_some("ways of the exact reduction")
    }

    /// The rules' way by states and the search against each other, and against the way through all
    /// reductions where there are few enough.
    fn exact_is_alike(&mut self, lodged: &Lodged) -> bool {
        let has_few = lodged.plan.len() <= FEW_STEPS;
        let by_states = lodged.least_by_states();
        self.exact += 1;
        self.exact_among_all += usize::from(has_few);
        lodged.least_by_search(lodged.marked()) == by_states
            && (!has_few || lodged.least_of_all() == by_states)
    }

    /// The rule, the passes and the rounds against each other.
    fn marks_are_alike(&mut self, lodged: &Lodged) -> bool {
        let marked = lodged.marked();
        let (by_passes, passes) = lodged.marked_by_passes();
        let (by_rounds, rounds) = lodged.marked_by_rounds();
        self.marks += 1;
        self.most_rounds = self.most_rounds.max(rounds);
        self.most_passes = self.most_passes.max(passes);
        by_passes == marked && by_rounds == marked
    }

    /// Prints what was seen, and answers whether it is enough.
    fn finish(&self) -> bool {
        print_count("exact reduction, by states and by search", self.exact);
        print_count("exact reduction, among all as well", self.exact_among_all);
        print_count("marks, by the rule, by passes, by rounds", self.marks);
        print_count("the most rounds that marked", self.most_rounds);
        print_count("the most passes that marked", self.most_passes);
        print_count("licences, by the rules and by search", self.licences);
        self.exact_among_all > 0
            && self.licences > 0
            && self.most_rounds >= MANY_ROUNDS
            && self.most_passes >= MANY_PASSES
    }
}

/// The ways of finding marks, the exact reduction and licences.
fn ways_are_alike(seed: u64) -> bool {
    let mut ways = Ways::default();
    for (number, case) in numbered_cases(seed, CASES_FOR_WAYS) {
        if let Some(differing) = ways.differing(number, &case) {
            println!("{differing} differ: --seed {seed} --case {number}");
            return false;
        }
    }
    ways.finish()
}

/// The faulty services against the rules, on the worked and the random cases of each service.
fn faults_are_found(seed: u64) -> bool {
    let worked = worked::cases().into_iter().map(|(_, case)| case);
    let random = numbered_cases(seed, CASES_FOR_FAULTS).map(|(_, case)| case);
    let cases: Vec<Case> = worked.chain(random).collect();
    let mut all_found = true;
    for (service, faults) in faulty::all() {
        let cases = cases.iter().filter(|case| case.call.service == service);
        let with_right = |case: &'_ Case| case.lent.after(&case.call.by_rules(&case.lent));
        let cases: Vec<(&Memory, Memory)> =
            cases.map(|case| (&case.lent, with_right(case))).collect();
        for Fault { name, answer } in faults {
            let differs = |(lent, right): &&(&Memory, Memory)| lent.after(&answer(lent)) != *right;
            let found = cases.iter().filter(differs).count();
            print_count(&format!("fault found: {name}"), found);
            all_found &= found > 0;
        }
        let tried = format!("cases of {} for the faults", service.name());
        print_count(&tried, cases.len());
    }
    all_found
}
