//! The order in which the facts of a precondition are looked at, on steps of as many facts as there
//! may be, of which only the last fails or only the first. The services look at the last fact first;
//! the other order stands here alone.

use super::plans::{chain_of_levels, MOST_LEVELS};
use super::table;
use super::timed::{print_times, Column, Timed};
use crate::cases::{going, step_if, Answer, Case, Rule, Service};
use crate::makers::List;
use crate::rules::{holds, Cause, Kept, Lodged, Refusal, State, MAX_VARIABLES};

/// The first fact is looked at first.
fn all_hold_from_front(facts: &[u32], state: &State) -> bool {
    facts.iter().all(|&fact| holds(fact, state))
}

const STEP_FROM_FRONT: Rule = |lent, numbers| step_if(all_hold_from_front, lent, numbers);
const ELIMINATE_FROM_FRONT: Rule = |lent, _| going(lent, eliminate_from_front, Answer::keeping);

fn eliminate_from_front(words: &[u32], plan: &[u32], output: usize) -> Result<Kept, Refusal> {
    let lodged = Lodged::check(words, plan, &[output])?;
    Ok(lodged.kept(|lodged| lodged.eliminated_if(all_hold_from_front)))
}

/// What is timed: a service, on a chain in which of a step only this fact can fail.
struct Ordered {
    service: &'static str,
    list: List,
    failing: &'static str,
}

/// One step in a state in which it can't be done, with a sheet of no other action.
fn step_without_its_level(level: usize) -> (List, Timed) {
    let list = chain_of_levels(level, 1);
    let mut state: State = [0; MAX_VARIABLES];
    state[level] = 1;
    let case = Case::fitting(Service::Step, &list.task.words(), &[], [0; 2]);
    let case = case.with_state(&state).refused(Cause::NotValid.at(1));
    (list, Timed::of_refused(case))
}

/// Each trial strikes a step and, after that, every later one, so that all trials fail.
fn elimination_of_levels(level: usize) -> (List, Timed) {
    let list = chain_of_levels(level, MOST_LEVELS);
    let timed = Timed::of(list.fitting(Service::Eliminate));
    (list, timed)
}

/// Steps of which only one fact fails, in both orders.
pub fn orders() -> bool {
    let ways: [(&str, fn(usize) -> (List, Timed), Rule); 2] = [
        ("one step", step_without_its_level, STEP_FROM_FRONT),
        ("elimination", elimination_of_levels, ELIMINATE_FROM_FRONT),
    ];
    let mut rows = Vec::new();
    for (service, make, from_front) in ways {
        for (failing, level) in [("the last", MAX_VARIABLES - 1), ("the first", 0)] {
            let (list, timed) = make(level);
            let ordered = Ordered {
                service,
                list,
                failing,
            };
            rows.push((ordered, timed.beside(from_front)));
        }
    }
    let front: &[Column<Ordered>] = &[
        ("Service", |row| row.it.service.to_string()),
        ("Facts needed", |row| facts_needed(&row.it.list)),
        ("Steps", |row| row.it.list.plan.len().to_string()),
        ("Failing fact", |row| row.it.failing.to_string()),
    ];
    let behind: &[Column<Ordered>] = &[
        ("Rust, from the front", |row| {
            row.timed.best_beside().map_or(String::new(), table::time)
        }),
        ("Front in back", |row| front_in_back(row.timed)),
    ];
    print_times("\nOrders of a precondition", rows, 1, [front, behind])
}

/// By each action of a chain.
fn facts_needed(list: &List) -> String {
    let needed = list.task.actions.first();
    needed.map_or(0, |it| it.preconditions.len()).to_string()
}

/// The time from the front in that from the back, both of the Rust version.
fn front_in_back(timed: &Timed) -> String {
    let [_, back] = timed.best();
    let ratio = timed.best_beside().map(|front| front / back);
    ratio.map_or(String::new(), |ratio| format!("{ratio:.2}"))
}
