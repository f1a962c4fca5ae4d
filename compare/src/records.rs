//! Records for the tests of others, in the form that the programs read: a sheet that is accepted, and
//! a list of its actions, valid or not.

use crate::cases::{kinds, Case};
use crate::comparison::{inputs, long_lists};
use crate::makers::{Random, Task};
use crate::rules::MAX_STEPS;
use std::io::{self, BufWriter, Write};

/// Behind so many random cases stands a long list.
const CASES_BEFORE_LONG: u64 = 8;

/// Writes so many records one after the other. Answers whether they could be written.
pub fn write(seed: u64, count: u64) -> bool {
    let written = write_to(io::stdout().lock(), seed, count);
    if let Err(error) = &written {
        eprintln!("the records can't be written: {error}");
    }
    written.is_ok()
}

fn write_to(output: impl Write, seed: u64, count: u64) -> io::Result<()> {
    let mut output = BufWriter::new(output);
    for (_, record) in (0..count).zip(all(seed)) {
        output.write_all(&record)?;
    }
    output.flush()
}

/// Those of the random cases, whose kinds take turns, and of long lists.
fn all(seed: u64) -> impl Iterator<Item = Vec<u8>> {
    let kinds = kinds::all();
    let mut long_lists = long_lists::in_turns(seed);
    (1..).flat_map(move |number| {
        let (_, case) = kinds::numbered(&kinds, seed, number);
        let of_case = of_case(&mut Random::of_case(!seed, number), &case);
        let is_long_next = number % CASES_BEFORE_LONG == 0;
        let long = is_long_next.then(|| long_lists.next()).flatten();
        let of_list = long.map(|list| list.input_bytes());
        of_case.into_iter().chain(of_list)
    })
}

/// Nothing if the sheet is refused, or the plan is too long or has an unknown action. Where the case
/// has no plan, any actions of its sheet make one.
fn of_case(random: &mut Random, case: &Case) -> Option<Vec<u8>> {
    let words = &case.lent.words;
    let actions = Task::of_sheet(words)?.actions.len();
    let plan = match case.call.service.takes_plan() {
        true => case.lent.plan.to_vec(),
        false => any_actions(random, actions),
    };
    let is_known = |&action: &u32| (action as usize) < actions;
    let fits = plan.len() <= MAX_STEPS && plan.iter().all(is_known);
    fits.then(|| inputs::input_bytes(words, &plan))
}

fn any_actions(random: &mut Random, actions: usize) -> Vec<u32> {
    let most = if actions > 0 { MAX_STEPS } else { 0 };
    let steps = random.size(0..=most);
    (0..steps).map(|_| random.index(actions) as u32).collect()
}
