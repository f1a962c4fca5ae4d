//! The tables of times: of the services, of the orders of a precondition's facts, of marks on plans
//! of many rounds, of the exact reduction on the hard families, of licences, of texts for the
//! translator, and of the built programs.

use super::orders::orders;
use super::plans::{chain_of_earlier_steps, chain_of_needs, deliveries_walk, knots, lamps};
use super::plans::{facts_of, gates_walk, name, with_large_actions, HardPlan, LENGTHS};
use super::table::{self, MOST_TIME};
use super::texts::{LongText, SIZES};
use super::timed::{best_time_of, print_times, Column, Row, Timed, RUNS};
use crate::cases::{Memory, Service};
use crate::comparison::inputs::{closed, of_text, Form, Input};
use crate::comparison::programs::{written, Built, LICENSE};
use crate::makers::families::{Family, Placement};
use crate::makers::List;
use crate::rules::license::BY_SEARCH;
use crate::rules::{Claim, Lodged, MAX_STEPS, MAX_UNMARKED};
use std::fs;
use std::hint::black_box;
use std::thread;
use std::time::Instant;

/// Prints the tables, and answers whether all answers were right.
pub fn run(built: &[Built]) -> bool {
    print_machine();
    let are_right = [
        services(),
        orders(),
        marks(),
        families(),
        licences(),
        texts(),
        programs(built),
    ];
    are_right.iter().all(|&is_right| is_right)
}

/// How busy the machine was tells how far times can be trusted.
fn print_machine() {
    let cores = thread::available_parallelism().map_or(0, usize::from);
    let load = fs::read_to_string("/proc/loadavg").unwrap_or_default();
    let load = load.split(' ').next().unwrap_or_default();
    println!("{cores} cores, load average {load} before the run\n");
}

/// A list with what a table calls it.
type Named = (&'static str, List);

// Columns that more than one table has.
const NAME: fn(&Row<Named>) -> String = |row| row.it.0.to_string();
const FACTS: Column<Named> = ("Facts of an action", |row| facts_of(&row.it.1.task));
const STEPS: Column<Named> = ("Steps", |row| row.it.1.plan.len().to_string());

/// Each list with its case for a service, to be timed.
fn rows(service: Service, lists: Vec<Named>) -> Vec<(Named, Timed)> {
    let row = |named: Named| {
        let timed = Timed::of(named.1.fitting(service));
        (named, timed)
    };
    lists.into_iter().map(row).collect()
}

/// The services that take any plan, as the table names them.
const SERVICES: [(Service, &str); 4] = [
    (Service::CheckPlan, "check of a list"),
    (Service::Marks, "marks"),
    (Service::Eliminate, "elimination"),
    (Service::Greedy, "greedy elimination"),
];

/// A plan for the exact reduction, which takes few unmarked steps. A sheet of large actions has no
/// room for the steps of the longest one.
fn plan_for_exact(steps: usize) -> List {
    HardPlan::of(Family::Gates, Placement::Spread, steps).make()
}

/// Each service on a plan of small actions and on one of large actions.
fn services() -> bool {
    let walk = gates_walk();
    let large = with_large_actions(&walk);
    let mut all = Vec::new();
    for (service, name) in SERVICES {
        all.extend(rows(
            service,
            vec![(name, walk.clone()), (name, large.clone())],
        ));
    }
    let shorter_large = with_large_actions(&plan_for_exact(128));
    let lists = [plan_for_exact(MAX_STEPS), shorter_large].map(|list| ("exact reduction", list));
    all.extend(rows(Service::Exact, lists.into()));
    let marked_or_kept: Column<Named> = ("Marked or kept", |row| {
        match row.timed.case.lent.mask.is_empty() {
            true => "–".to_string(),
            false => row.timed.steps_in_mask(),
        }
    });
    let front = &[("Service", NAME), FACTS, STEPS, marked_or_kept];
    print_times("Services", all, 1, [front, &[]])
}

/// Plans whose marks come about in few rounds and in many. Beside the passes, which the library has
/// too, stands what the rounds take one by one. Of the rounds and the passes those that mark
/// something are counted; both end with one more.
fn marks() -> bool {
    let walk = gates_walk();
    let large = with_large_actions(&walk);
    let lists = vec![
        ("gates", walk),
        ("gates", large),
        ("chain of needs", chain_of_needs()),
        ("chain of earlier steps", chain_of_earlier_steps()),
    ];
    let front: &[Column<Named>] = &[
        ("Plan", NAME),
        FACTS,
        STEPS,
        ("Marked", |row| row.timed.steps_in_mask()),
        ("Rounds", |row| {
            times_of(row.timed, |it| it.marked_by_rounds().1)
        }),
        ("Passes", |row| {
            times_of(row.timed, |it| it.marked_by_passes().1)
        }),
    ];
    let behind: &[Column<Named>] = &[("Rust, by rounds", |row| time_by_rounds(row.timed))];
    print_times("\nMarks", rows(Service::Marks, lists), 1, [front, behind])
}

/// How often something was marked.
fn times_of(timed: &Timed, count: fn(&Lodged) -> usize) -> String {
    let Memory { words, plan, .. } = &timed.case.lent;
    let lodged = Lodged::check(words, plan, &[]);
    lodged.map_or(0, |lodged| count(&lodged)).to_string()
}

fn time_by_rounds(timed: &Timed) -> String {
    let Memory { words, plan, .. } = &timed.case.lent;
    table::time(best_time_of(RUNS, || {
        let lodged = Lodged::check(black_box(words), plan, &[]);
        let _ = black_box(lodged.map(|lodged| lodged.marked_by_rounds()));
    }))
}

/// The exact reduction on the hard families, each at three lengths, against the search that has the
/// same cuts.
fn families() -> bool {
    let row = |plan: HardPlan| (plan, Timed::of(plan.make().fitting(Service::Exact)));
    let title = format!("\nExact reduction, {MAX_UNMARKED} steps beside the chain");
    let front: &[Column<HardPlan>] = &[
        ("Family", |row| name(row.it.family)),
        ("Placement", |row| name(row.it.placement)),
        ("Steps", |row| name(row.it.steps)),
        ("Unmarked", |row| row.timed.unmarked()),
        ("Turns", |row| row.timed.turns()),
    ];
    let rows = HardPlan::all().into_iter().map(row).collect();
    print_times(
        &title,
        rows,
        LENGTHS.len(),
        [front, &[("Growth", |row| row.growth())]],
    )
}

/// Plans as long as they may be that come to each claim. Of the tied gates as many steps are left
/// unmarked as the exact reduction takes, and then twice as many.
fn lists_for_licences() -> Vec<Named> {
    let gates = gates_walk();
    let large = with_large_actions(&gates);
    let family = |family| HardPlan::longest_in_front(family).make();
    vec![
        ("walk among gates", gates),
        ("walk among gates", large),
        ("deliveries", deliveries_walk()),
        ("lamps", lamps()),
        ("tied gates", knots(MAX_UNMARKED)),
        ("more tied gates", knots(2 * MAX_UNMARKED)),
        ("family of gates", family(Family::Gates)),
        ("family of keys", family(Family::Keys)),
    ]
}

fn licences() -> bool {
    let front: &[Column<Named>] = &[
        ("Plan", NAME),
        FACTS,
        ("Unmarked", |row| row.timed.unmarked()),
        ("Left unmarked", |row| claim_and_left(row.timed).1),
        ("Claim", |row| claim_and_left(row.timed).0),
        ("Kept", |row| row.timed.steps_in_mask()),
    ];
    let title = format!("\nLicences at {MAX_STEPS} steps");
    let rows = rows(Service::License, lists_for_licences());
    print_times(&title, rows, 1, [front, &[]])
}

/// The claim, and how many steps are left unmarked.
fn claim_and_left(timed: &Timed) -> (String, String) {
    let Memory { words, plan, .. } = &timed.case.lent;
    match BY_SEARCH.license(words, plan, plan.len()) {
        Ok((licensed, grounds)) => {
            let left = match licensed.claim {
                Claim::Least => "–".to_string(),
                _ => grounds.unmarked.to_string(),
            };
            (licensed.claim.to_string(), left)
        }
        Err(_) => ("**refused**".to_string(), String::new()),
    }
}

/// Where a text is four times as long, its time grows by four at most.
fn texts() -> bool {
    let front: &[Column<LongText>] = &[
        ("Text of", |row| name(row.it.bulk)),
        ("Bytes", |row| row.timed.case.lent.text.len().to_string()),
        // The last word of `out`.
        ("Words", |row| {
            let words = |memory: &Memory| memory.out.last().map_or(String::new(), u64::to_string);
            row.timed.told(words)
        }),
    ];
    let row = |text: LongText| (text, Timed::of(text.case()));
    let rows = LongText::all().map(row).collect();
    let title = "\nTexts for the translator";
    print_times(
        title,
        rows,
        SIZES.len(),
        [front, &[("Growth", |row| row.growth())]],
    )
}

/// The plans that licences are timed on, for the program.
pub fn inputs_for_licences() -> Vec<Input> {
    let input = |(name, list): Named| {
        let name = format!("{name}, {} facts", facts_of(&list.task));
        closed(&name, list.input_bytes())
    };
    lists_for_licences().into_iter().map(input).collect()
}

/// The built programs, from the start of the process to the end of what it writes, on each family's
/// longest plans, on the plans for licences or on the longest texts. Answers whether each wrote
/// what was due.
fn programs(built: &[Built]) -> bool {
    println!("\nWhole programs, {RUNS} runs:\n");
    table::print_head(&["Program", "Plan or text", "Best", "Median"]);
    let plans = HardPlan::all().into_iter();
    let longest = plans.filter(|plan| plan.steps == MAX_STEPS);
    let inputs: Vec<(Family, Input)> = longest.map(|plan| (plan.family, input_of(plan))).collect();
    let texts: Vec<Input> = longest_texts().collect();
    let lists = inputs_for_licences();
    let right = |built: &&Built| match built.program.reads {
        Form::Record if built.program.name == LICENSE => {
            let shown = |time| table::time_within(MOST_TIME, time);
            lists.iter().all(|it| print_program(built, it, shown))
        }
        Form::Record => inputs.iter().all(|(family, input)| {
            print_program(built, input, |time| table::program_time(*family, time))
        }),
        Form::Text => texts.iter().all(|it| print_program(built, it, table::time)),
    };
    built.iter().filter(right).count() == built.len()
}

fn longest_texts() -> impl Iterator<Item = Input> {
    let longest = LongText::all().filter(|text| Some(&text.size) == SIZES.last());
    longest.map(|text| of_text(&text.arguments().join(", "), text.make()))
}

fn input_of(plan: HardPlan) -> Input {
    let name = plan.arguments().join(", ");
    closed(&name, plan.make().input_bytes())
}

/// The times are shown in this way.
fn print_program(built: &Built, input: &Input, shown: impl Fn(f64) -> String) -> bool {
    let due = (built.program.due_of_hard)(&input.bytes);
    let mut times = Vec::new();
    for _ in 0..RUNS {
        let begin = Instant::now();
        let written = written(&built.path, input);
        times.push(begin.elapsed().as_secs_f64() * 1e6);
        if written.as_ref() != Ok(&due) {
            println!("{} wrote otherwise than is due", built.program.name);
            return false;
        }
    }
    times.sort_by(f64::total_cmp);
    let [best, median] = [0, RUNS / 2].map(|index| shown(times[index]));
    table::print_row(&[built.program.name, &input.name, &best, &median]);
    true
}
