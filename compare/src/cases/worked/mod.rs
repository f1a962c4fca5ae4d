//! The worked lists of document 01 with the marks of document 02, the numbers at its limits,
//! licences of these lists and of others, and texts for the translator of document 02, with the
//! answers written out by hand from these documents: they hold the independent version to them.

mod licences;
mod sheets;
mod texts;

pub use sheets::{with_lamp_cost, SHEET_P};

use super::{reducing, refusing, taking_plan, Answer, Case, Lent, Service, SECOND};
use crate::rules::{Cause, Claim, Kept, Licensed, Mask, Moves, Values};
use crate::rules::{MAX_UNMARKED, MAX_VARIABLES};
use sheets::{dearest, gate_alone, two_ways, u_and_v, LAMP};

/// A case with its name in a report of differences.
type Worked = (&'static str, Case);

pub const LIST_1: [u32; 6] = [3, 0, 2, 0, 1, 2];
const LIFT_DRAIN_DROP: [u32; 3] = [0, 1, 2];

pub fn cases() -> Vec<Worked> {
    let mut cases = valid_plans();
    cases.extend(limits());
    cases.extend(steps());
    cases.extend(courses());
    cases.extend(moves());
    cases.extend(tallies());
    cases.extend(reductions());
    cases.extend(refusals());
    cases.extend(short_outputs());
    cases.extend(kept_parts());
    cases.extend(licences::cases());
    cases.extend(texts::cases());
    cases
}

fn check_sheet(words: &[u32]) -> Case {
    Case::fitting(Service::CheckSheet, words, &[], [0; 2])
}

fn valid(words: &[u32], plan: &[u32], cost: usize, end: &[u32]) -> Case {
    let case = Case::fitting(Service::CheckPlan, words, plan, [0; 2]);
    case.due(Answer::valid(cost, plan.len(), &state(end)))
}

/// The first values of a state whose others are zero.
fn state(values: &[u32]) -> Vec<u32> {
    let mut state = values.to_vec();
    state.resize(MAX_VARIABLES, 0);
    state
}

/// As many lamps as it takes before list 3 for a plan of this length.
fn lamps_then_drain(length: usize) -> Vec<u32> {
    let mut plan = vec![LAMP; length - LIFT_DRAIN_DROP.len()];
    plan.extend(LIFT_DRAIN_DROP);
    plan
}

fn valid_plans() -> Vec<Worked> {
    let accepted = Answer::accepted(&[]);
    vec![
        ("sheet P", check_sheet(&SHEET_P).due(accepted)),
        ("list 1", valid(&SHEET_P, &LIST_1, 23, &[0, 1, 1])),
        ("list 3", valid(&SHEET_P, &LIFT_DRAIN_DROP, 12, &[0, 1])),
    ]
}

/// List 11, and the cost of the dearest plan.
fn limits() -> Vec<Worked> {
    let dear = with_lamp_cost(1_000_000);
    let too_dear = with_lamp_cost(1_000_001);
    let refusal = Cause::Cost.at(3);
    let dear_plan = Case::fitting(Service::Exact, &dear, &LIFT_DRAIN_DROP, [3, 0]);
    let all_three = kept(short(0b111), 12, &LIFT_DRAIN_DROP);
    let too_dear_plan = |service| Case::fitting(service, &too_dear, &[], [0; 2]).refused(refusal);
    let longest = lamps_then_drain(255);
    vec![
        ("255 steps", valid(&SHEET_P, &longest, 264, &[0, 1, 1])),
        ("price limit", check_sheet(&dear).due(Answer::accepted(&[]))),
        ("price limit", dear_plan.due(Answer::keeping(all_three))),
        ("price", check_sheet(&too_dear).refused(refusal)),
        ("price, plan", too_dear_plan(Service::CheckPlan)),
        ("price, plan", too_dear_plan(Service::Exact)),
        ("dearest", valid(&dearest(), &[0; 255], 255_000_000, &[])),
    ]
}

/// The second state has values outside the domains.
fn steps() -> Vec<Worked> {
    let step = |values, action| {
        let case = Case::fitting(Service::Step, &SHEET_P, &[], [0; 2]);
        case.with_state(&state(values))
            .with_numbers([action, 0, 0, 0])
    };
    let to = |values| Answer::accepted(&[]).with_state(&state(values));
    vec![
        ("lift", step(&[], 0).due(to(&[1]))),
        ("lamp", step(&[9, 9], LAMP).due(to(&[9, 9, 1]))),
        ("drop", step(&[], 2).refused(Cause::NotValid.at(1))),
        ("unknown", step(&[], 4).refused(Cause::UnknownAction.at(1))),
    ]
}

/// The states along lists 1 and 4 to 6, of which the last three are not valid; along one with a step
/// behind that which can't be done; and along the longest list, of which there is no room for the
/// last.
fn courses() -> Vec<Worked> {
    let in_p = |plan: &[u32]| Case::fitting(Service::Course, &SHEET_P, plan, [0; 2]);
    let passing = |plan: &[u32], states: &[[u32; 3]]| {
        let states: Vec<Values> = states.iter().map(|state| state.to_vec()).collect();
        in_p(plan).due(Answer::passing(&states))
    };
    let [start, lifted, drained] = [[0, 0, 0], [1, 0, 0], [1, 1, 0]];
    let [lit, lit_lifted] = [[0, 0, 1], [1, 0, 1]];
    let along_list_1 = [
        start,
        lit,
        lit_lifted,
        lit,
        lit_lifted,
        [1, 1, 1],
        [0, 1, 1],
    ];
    let mut longest = vec![start];
    longest.extend([lit; 252]);
    longest.extend([lit_lifted, [1, 1, 1], [0, 1, 1]]);
    let mut without_room = passing(&lamps_then_drain(255), &longest);
    without_room.lent.states = Lent::of(vec![u32::MAX; 3 * 255 + 1]);
    let unknown = in_p(&[0, 0, 4]).refused(Cause::UnknownAction.at(3));
    vec![
        ("states, list 1", passing(&LIST_1, &along_list_1)),
        ("states, list 4", passing(&[], &[start])),
        ("states, list 5", passing(&[0, 0], &[start, lifted])),
        (
            "states, list 6",
            passing(&[0, 1], &[start, lifted, drained]),
        ),
        (
            "states, drain behind",
            passing(&[0, 0, 1], &[start, lifted]),
        ),
        ("states, no room", without_room),
        ("states, unknown action", unknown),
    ]
}

/// The moves of list 1, of which the last three are kept and the drain is marked; with no words of
/// masks; of a list that can't be done; of an empty one; and with room for a row and a half.
fn moves() -> Vec<Worked> {
    let in_p = |plan: &[u32], kept: &[u64], marked: &[u64]| {
        let mut case = Case::fitting(Service::Moves, &SHEET_P, plan, [0; 2]);
        case.lent.kept = Lent::of(kept);
        case.lent.marked = Lent::of(marked);
        case
    };
    let moving = |rows: &[_], saved| {
        let rows = rows.to_vec();
        Answer::moving(Moves { rows, saved })
    };
    let along_list_1 = [
        [1, 0, 0, 1, 1, 0, 0, 1, 1],
        [5, 0, 0, 6, 2, 0, 0, 6, 2],
        [5, 0, 0, 11, 3, 0, 0, 11, 3],
        [5, 1, 0, 16, 4, 5, 1, 11, 3],
        [2, 1, 1, 18, 5, 7, 2, 11, 3],
        [5, 1, 0, 23, 6, 12, 3, 11, 3],
    ];
    let of_list_1 = || in_p(&LIST_1, &[0b111000], &[0b010000]).due(moving(&along_list_1, [11, 3]));
    let mut without_room = of_list_1();
    without_room.lent.rows = Lent::of(vec![u32::MAX; 9 + 4]);
    let struck = [[5, 0, 0, 5, 1, 0, 0, 5, 1], [5, 0, 0, 10, 2, 0, 0, 10, 2]];
    let undoable = in_p(&[0, 0], &[], &[]).due(moving(&struck, [10, 2]));
    let unknown = in_p(&[0, 0, 4], &[u64::MAX], &[0]).refused(Cause::UnknownAction.at(3));
    vec![
        ("moves, list 1", of_list_1()),
        ("moves, no room", without_room),
        (
            "moves, list 4",
            in_p(&[], &[1], &[1]).due(moving(&[], [0, 0])),
        ),
        ("moves, list 5, no masks", undoable),
        ("moves, unknown action", unknown),
    ]
}

fn tallies() -> Vec<Worked> {
    let of = |service, numbers| Case::without_sheet(service, 0).with_numbers(numbers);
    let add = |[cost, steps]: [u32; 2], more, after| {
        let case = of(Service::TallyAdd, [cost, steps, more, 0]);
        case.due(Answer::telling(after, 0))
    };
    let compare = |numbers, returned| {
        let case = of(Service::TallyCompare, numbers);
        case.due(Answer::returning(returned))
    };
    let million = 1_000_000;
    let [below, full, past] = [254 * million, 255 * million, 255 * million + 1];
    let most = u32::MAX;
    vec![
        ("first step", add([0, 0], 5, [5, 1])),
        ("255th step", add([10, 254], 0, [10, 255])),
        ("256th step", add([10, 255], 1, [10, 255])),
        ("to the limit", add([below, 7], million, [full, 8])),
        ("past it", add([below, 7], million + 1, [below, 7])),
        ("free, past it", add([past, 7], 0, [past, 7])),
        ("past 2^32", add([most, 0], 1, [most, 0])),
        ("cheaper", compare([12, 6, 23, 3], 0)),
        ("alike", compare([12, 3, 12, 3], 1)),
        ("more steps", compare([12, 4, 12, 3], 2)),
    ]
}

/// A mask of a list of at most 64 steps.
fn short(word: u64) -> Mask {
    [word, 0, 0, 0]
}

fn kept(mask: Mask, cost: usize, actions: &[u32]) -> Kept {
    Kept {
        cost,
        actions: actions.to_vec(),
        mask,
    }
}

/// A list with its marks and what elimination, greedy elimination and the exact reduction keep. If
/// more than 20 steps are unmarked the last is what a licence leaves, of which all is marked.
fn list(
    name: &'static str,
    words: &[u32],
    plan: &[u32],
    marks: Mask,
    kept: [Kept; 3],
) -> Vec<Worked> {
    let [eliminated, greedy, left] = kept;
    let both = [eliminated.clone(), greedy.clone()];
    let cheaper = match greedy.tally() < eliminated.tally() {
        true => greedy.clone(),
        false => eliminated.clone(),
    };
    let marked: u32 = marks.iter().map(|word| word.count_ones()).sum();
    let unmarked = plan.len() - marked as usize;
    let has_few = unmarked <= MAX_UNMARKED;
    let licensed = Licensed {
        claim: if has_few {
            Claim::Least
        } else {
            Claim::Irreducible
        },
        kept: left.clone(),
    };
    let exact = match has_few {
        true => Answer::keeping(left),
        false => Answer::refused(Service::Exact, Cause::Unmarked.at(unmarked)),
    };
    let answers = [
        (Service::Marks, Answer::marking(marks)),
        (Service::Eliminate, Answer::keeping(eliminated)),
        (Service::Greedy, Answer::keeping(greedy)),
        (Service::Cheaper, Answer::keeping_both(both)),
        (Service::CheaperLeft, Answer::keeping(cheaper)),
        (Service::Exact, exact),
        (Service::License, Answer::licensed(licensed)),
    ];
    // The second output is longer than it has to be.
    let outputs = [plan.len(), plan.len() + 2];
    let case = |(service, answer)| Case::fitting(service, words, plan, outputs).due(answer);
    answers.map(|it| (name, case(it))).into()
}

fn alike(kept: Kept) -> [Kept; 3] {
    [kept.clone(), kept.clone(), kept]
}

/// In list 1 the drain alone is marked, as before: the second lift would have to be by the first
/// drop, that one by both lifts, the first lift by the first drop, and the last drop by the second
/// lift. In list 3 and behind the lamps of the longest list the lift is marked by the start and the
/// drain, and the drop by the lift and the end. In lists 7 and 8 nobody writes another value between
/// two writers of a goal fact, and in list 9 the lift and the drop only support each other.
///
/// Elimination on list 8, of which the document is silent, keeps step 2. The last step of the
/// longest list is bit 62 of the mask's last word.
fn reductions() -> Vec<Worked> {
    let in_p = |name, plan: &[u32], marks, mask| {
        let kept = alike(kept(mask, 12, &LIFT_DRAIN_DROP));
        list(name, &SHEET_P, plan, marks, kept)
    };
    let [first, second] = [kept(short(0b01), 1, &[0]), kept(short(0b10), 9, &[1])];
    let ways = [second, first.clone(), first];
    let both = kept(short(0b010), 6, &[1]);
    let covers = [both.clone(), kept(short(0b101), 8, &[0, 2]), both];
    let nothing = alike(kept(short(0), 0, &[]));
    let behind_lamps = |lamps: usize| {
        let last_three = short(0b111_u64 << lamps);
        in_p(
            "list 10",
            &lamps_then_drain(lamps + 3),
            last_three,
            last_three,
        )
    };
    let last_three = [0, 0, 0, 0b111 << 60];
    let lists = [
        in_p("lists 1 and 2", &LIST_1, short(0b010000), short(0b111000)),
        in_p("list 3", &LIFT_DRAIN_DROP, short(0b111), short(0b111)),
        list("list 7", &two_ways(), &[0, 1], short(0), ways),
        list("list 8", &u_and_v(), &[0, 1, 2], short(0), covers),
        list("list 9", &gate_alone(), &[0, 2], short(0), nothing),
        behind_lamps(19),
        behind_lamps(20),
        behind_lamps(21),
        in_p("255 steps", &lamps_then_drain(255), last_three, last_three),
    ];
    lists.into_iter().flatten().collect()
}

/// Lists 4 to 6 and 11. That a list is too long is told before that the outputs are too short.
fn refusals() -> Vec<Worked> {
    let too_long = lamps_then_drain(256);
    let mut cases = Vec::new();
    for service in taking_plan() {
        let too_long = Case::fitting(service, &SHEET_P, &too_long, [0; 2]);
        cases.push(("256 steps", too_long.refused(Cause::PlanLength.at(255))));
    }
    for service in refusing(Cause::NotValid) {
        let not_valid = |plan: &[u32], place| {
            let case = Case::fitting(service, &SHEET_P, plan, [2; 2]);
            case.refused(Cause::NotValid.at(place))
        };
        cases.push(("list 4", not_valid(&[], 1)));
        cases.push(("list 5", not_valid(&[0, 0], 2)));
        cases.push(("list 6", not_valid(&[0, 1], 3)));
    }
    cases
}

/// Outputs are looked at before the steps are done and before marks are counted.
fn short_outputs() -> Vec<Worked> {
    let short = |service, plan: &[u32], outputs| {
        let refusal = Cause::ShortOutput.at(plan.len());
        Case::fitting(service, &SHEET_P, plan, outputs).refused(refusal)
    };
    let mut cases = Vec::new();
    for service in reducing() {
        let with_21_unmarked = short(service, &lamps_then_drain(24), [23; 2]);
        cases.push(("short output, 21 unmarked", with_21_unmarked));
        let outputs: &[[usize; 2]] = match service.takes(SECOND) {
            true => &[[2, 3], [3, 2]],
            false => &[[2, 0]],
        };
        for &outputs in outputs {
            let valid = short(service, &LIFT_DRAIN_DROP, outputs);
            let not_valid = short(service, &[0, 0, 1], outputs);
            cases.push(("short output", valid));
            cases.push(("short output, not valid", not_valid));
        }
    }
    cases
}

/// The parts shown for lists 7 and 8, for two alike, for fewer steps, after a refusal, of an output
/// that is shorter than its tally has steps, and where there is no room for all of it.
fn kept_parts() -> Vec<Worked> {
    let [first, second] = [vec![1, 5, 6], vec![0, 2]];
    let shown = |numbers, part: &[u32]| {
        let room = vec![u32::MAX; first.len()];
        let case = Case::of_parts([first.clone(), second.clone()], room);
        case.with_numbers(numbers).due(Answer::showing(0, part))
    };
    let mut without_room = shown([4, 3, 9, 2], &[1, 5]);
    without_room.lent.part = Lent::of([u32::MAX; 2]);
    vec![
        ("part, list 7", shown([9, 1, 1, 1], &[0])),
        ("part, list 8", shown([6, 1, 8, 2], &[1])),
        ("part, alike", shown([4, 2, 4, 2], &[1, 5])),
        ("part, fewer steps", shown([4, 2, 4, 1], &[0])),
        ("part, refused", shown([0, 0, 0, 0], &[])),
        ("part, whole", shown([4, u32::MAX, 3, 3], &[0, 2])),
        ("part, no room", without_room),
    ]
}
