//! The kinds of cases that are tried, and what they share: calls with buffers of many lengths.

/// A table of kinds: the name of each, and what makes a case of it.
macro_rules! kinds {
    ($random:ident: $($name:literal => $case:expr,)*) => {
        &[$(($name, |$random| $case)),*]
    };
}

mod exact;
mod license;
mod plan;
mod reduction;
mod sheet;
mod step;
mod tally;
mod translator;

use super::{taking_plan, Case, Lent, Service, FIRST, SECOND, WRITTEN};
use crate::makers::translator::faults as translator_faults;
use crate::makers::{faults, List, Random, Task};
use crate::rules::MASK_WORDS;

/// Makes a case, unless the random task has no spot for it.
type Make = fn(&mut Random) -> Option<Case>;

/// The name of a kind, and what makes a case of it.
pub type Kind = (&'static str, Box<dyn Fn(&mut Random) -> Option<Case>>);

/// A kind for each of these, of which a case is made in one way.
fn each<T: Copy + 'static>(
    all: &[(&'static str, T)],
    make: fn(&mut Random, T) -> Option<Case>,
) -> Vec<Kind> {
    let kind = |&(name, it): &(&'static str, T)| -> Kind {
        (name, Box::new(move |random: &mut Random| make(random, it)))
    };
    all.iter().map(kind).collect()
}

fn listed(kinds: &[(&'static str, Make)]) -> Vec<Kind> {
    each(kinds, |random, make| make(random))
}

pub fn all() -> Vec<Kind> {
    let mut kinds = of_words();
    kinds.extend(listed(translator::KINDS));
    kinds.extend(each(
        &translator_faults::UNSUPPORTED,
        translator::unsupported,
    ));
    kinds.extend(each(&translator_faults::UNFIT, translator::unfit));
    kinds
}

/// Those of the services that read no text.
fn of_words() -> Vec<Kind> {
    let mut kinds = each(&faults::all(), sheet::with_fault);
    for others in [
        sheet::KINDS,
        plan::KINDS,
        step::KINDS,
        tally::KINDS,
        reduction::KINDS,
        exact::KINDS,
        license::KINDS,
        tally::PART_KINDS,
    ] {
        kinds.extend(listed(others));
    }
    kinds
}

/// The random case with this number and the name of its kind. Kinds take turns, so that a short run
/// tries them all.
pub fn numbered(kinds: &[Kind], seed: u64, number: u64) -> (&'static str, Case) {
    let (name, make) = &kinds[(number % kinds.len() as u64) as usize];
    let random = &mut Random::of_case(seed, number);
    // Random tasks are tried until one has a spot for the case.
    let most_attempts = 10_000;
    let case = (0..most_attempts).find_map(|_| make(random));
    let case = case.expect("some task has a spot for each kind of case");
    (name, case)
}

fn check_sheet(random: &mut Random, words: &[u32]) -> Case {
    case_with(random, Service::CheckSheet, words, &[], [0; 2])
}

fn step(random: &mut Random, words: &[u32], state: &[u32], action: u32) -> Case {
    let case = case_with(random, Service::Step, words, &[], [0; 2]);
    case.with_state(state).with_numbers([action, 0, 0, 0])
}

/// A case of a service that takes a plan, with outputs as long as the plan, or longer.
fn plan_case(random: &mut Random, service: Service, task: &Task, plan: &[u32]) -> Case {
    let steps = plan.len();
    let outputs = [(); 2].map(|_| match random.index(4) {
        0 => random.size(steps..=2 * steps + 2),
        1 => steps + 1,
        _ => steps,
    });
    case_with(random, service, &task.words(), plan, outputs)
}

/// The same with outputs of these lengths, where the service has them; what else it writes to has
/// the length that it needs, less or more.
fn case_with(
    random: &mut Random,
    service: Service,
    words: &[u32],
    plan: &[u32],
    outputs: [usize; 2],
) -> Case {
    let mut lengths = service.lengths(words, plan, outputs);
    for (length, (slice, _)) in lengths.iter_mut().zip(WRITTEN) {
        if *length > 0 && ![FIRST, SECOND].contains(slice) {
            *length = random_length(random, *length);
        }
    }
    let mut case = Case::filled(service, words, plan, &lengths, || random.filler());
    if service == Service::Moves {
        case.lent.kept = random_mask(random);
        case.lent.marked = random_mask(random);
    }
    case
}

/// The steps of a plan that greedy elimination doesn't take long over.
const QUICK_STEPS: usize = 40;

/// A service for a valid plan: long ones seldom go to greedy elimination.
fn service_for_valid(random: &mut Random, steps: usize) -> Service {
    let service = random.pick(&taking_plan());
    let takes_long = matches!(
        service,
        Service::Greedy | Service::Cheaper | Service::CheaperLeft | Service::License
    );
    if takes_long && steps > QUICK_STEPS && !random.once_in(32) {
        Service::Eliminate
    } else {
        service
    }
}

impl List {
    fn case(&self, random: &mut Random, service: Service) -> Option<Case> {
        let case = plan_case(random, service, &self.task, &self.plan);
        Some(self.with_due(case))
    }

    /// For a plan that is valid.
    fn case_of_some(&self, random: &mut Random) -> Option<Case> {
        let service = service_for_valid(random, self.plan.len());
        self.case(random, service)
    }
}

/// A mask of any bits, often with words missing or too many.
fn random_mask(random: &mut Random) -> Lent<u64> {
    let length = random_length(random, MASK_WORDS);
    let words: Vec<u64> = (0..length).map(|_| random.filler()).collect();
    Lent::of(words)
}

fn fillers(random: &mut Random, length: usize) -> Vec<u32> {
    (0..length).map(|_| random.filler() as u32).collect()
}

/// The length of a buffer: what the service needs, less or more.
fn random_length(random: &mut Random, needed: usize) -> usize {
    let excess = 5;
    match random.index(4) {
        0 => random.size(0..=needed),
        1 => random.size(needed..=needed + excess),
        _ => needed,
    }
}
