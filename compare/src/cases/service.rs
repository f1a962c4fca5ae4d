//! The services under test, each declared in one place: its function in the static library, what it
//! takes and writes, the answers that a run must show, and the rules that it is held to. Nothing
//! checks the functions against the library's source.
//!
//! Slices that a service only reads are lent mutably all the same: whether it leaves them alone is
//! under test, so the compiler must not take it for granted.

use super::{Answer, Memory, WRITTEN};
use crate::rules::{self, passes, search, Cause, Lodged, Refusal, State, Tally, Way};
use crate::rules::{all_hold, Test, MAX_VARIABLES, MOVE_WORDS, VARIABLES_WORD};
use std::cmp::Ordering;

/// The outputs, whose lengths are the caller's choice.
pub const FIRST: &str = "first";
pub const SECOND: &str = "second";

/// What a service takes beside slices; the numbers that it doesn't take are zero.
pub type Numbers = [u32; 4];

/// What is answered to what is lent, by one version of the rules.
pub type Rule = fn(&Memory, Numbers) -> Result<Answer, Refusal>;

pub struct Declared {
    /// With the library's prefix.
    function: &'static str,
    slices: &'static [&'static str],
    pub numbers: &'static [&'static str],
    /// What the words of `out` are.
    pub out: &'static [&'static str],
    /// 0 for acceptance and the refusal numbers, or what an answer without them is counted under.
    pub answers: &'static [u64],
    /// The refusals that a run must show at many places, and at how many at least.
    pub places: &'static [(u64, usize)],
    rule: Rule,
    /// The same rule by a way like the library's, if there is one that is timed against it.
    faster: &'static [Rule],
}

/// Declares each service by its slices, its numbers and its last slice, and has a call of it lend
/// the slices of these names. A slice passes as its pointer and then its length.
macro_rules! services {
    ($($service:ident = $function:ident(
        $($slice:ident: $word:ty),*; $($number:ident),*; $($last:ident: $last_word:ty)?
    ) $(-> $returned:ident: $type:ty)? {
        out: $out:expr,
        answers: $answers:expr,
        $(places: $places:expr,)*
        rule: $rule:expr,
        $(faster: $faster:expr,)?
    })*) => {
        extern "C" {
            $(fn $function(
                $(_: *mut $word, _: usize,)*
                $($number: u32,)*
                $(_: *mut $last_word, _: usize,)?
            ) $(-> $type)?;)*
        }

        #[derive(Clone, Copy, PartialEq, Eq)]
        pub enum Service {
            $($service),*
        }

        pub const SERVICES: &[Service] = &[$(Service::$service),*];

        static DECLARED: [Declared; SERVICES.len()] = [$(Declared {
            function: stringify!($function),
            slices: &[$(stringify!($slice),)* $(stringify!($last))?],
            numbers: &[$(stringify!($number)),*],
            out: $out,
            answers: $answers,
            places: &[$($places),*],
            rule: $rule,
            faster: &[$($faster)?],
        }),*];

        impl Service {
            /// Has the library answer in this memory.
            fn by_library(self, numbers: Numbers, memory: &mut Memory) {
                match self {
                    $(Service::$service => {
                        let [$($number,)* ..] = numbers;
                        // SAFETY: every pointer is good for its length, and the slices don't
                        // overlap.
                        $(let $returned =)? unsafe {
                            $function(
                                $(memory.$slice.as_mut_ptr(), memory.$slice.len(),)*
                                $($number,)*
                                $(memory.$last.as_mut_ptr(), memory.$last.len(),)?
                            )
                        };
                        $(memory.$returned = u64::from($returned);)?
                    })*
                }
            }
        }
    };
}

const REFUSAL: &[&str] = &["refusal number", "place"];
const TALLIED: &[&str] = &["refusal number", "place", "cost", "steps"];

services! {
    CheckSheet = hollchiku_check_sheet(words: u32; ; out: u64) {
        out: REFUSAL,
        answers: &[0, 1, 2, 3, 4, 5, 6, 7],
        rule: |lent, _| rules::check_sheet(&lent.words).map(|_| Answer::accepted(&[])),
    }
    Step = hollchiku_step(words: u32, state: u32; action; out: u64) {
        out: REFUSAL,
        answers: &[0, 1, 2, 3, 4, 5, 6, 7, 9, 11],
        rule: |lent, numbers| step_if(all_hold, lent, numbers),
    }
    CheckPlan = hollchiku_check_plan(words: u32, plan: u32, end: u32; ; out: u64) {
        out: TALLIED,
        answers: &[0, 1, 2, 3, 4, 5, 6, 7, 8, 9, 11],
        rule: |lent, _| Lodged::check(&lent.words, &lent.plan, &[])
            .map(|lodged| Answer::valid(lodged.cost(), lent.plan.len(), &lodged.end)),
    }
    Course = hollchiku_course(words: u32, plan: u32, states: u32; ; out: u64) {
        out: &["refusal number", "place", "states"],
        answers: &[0, 1, 2, 3, 4, 5, 6, 7, 8, 9],
        rule: |lent, _| rules::course(&lent.words, &lent.plan).map(|it| Answer::passing(&it)),
    }
    Moves = hollchiku_moves(
        words: u32, plan: u32, kept: u64, marked: u64, rows: u32; ; out: u64
    ) {
        out: &["refusal number", "place", "saved cost", "saved steps"],
        answers: &[0, 1, 2, 3, 4, 5, 6, 7, 8, 9],
        rule: |lent, _| {
            rules::moves(&lent.words, &lent.plan, &lent.kept, &lent.marked).map(Answer::moving)
        },
    }
    TallyAdd = hollchiku_tally_add(; cost, steps, price; out: u64) {
        out: &["cost", "steps"],
        answers: &[TAKEN, LEFT],
        rule: tally_add,
    }
    TallyCompare = hollchiku_tally_compare(; cost_a, steps_a, cost_b, steps_b;) -> returned: u32 {
        out: &[],
        answers: &[BELOW, EQUAL, ABOVE],
        rule: tally_compare,
    }
    Marks = hollchiku_marks(words: u32, plan: u32, mask: u64; ; out: u64) {
        out: REFUSAL,
        answers: &[0, 1, 2, 3, 4, 5, 6, 7, 8, 9, 11],
        rule: |lent, _| rules::marks::marks(&lent.words, &lent.plan).map(Answer::marking),
        faster: |lent, _| passes::marks(&lent.words, &lent.plan).map(Answer::marking),
    }
    Eliminate = hollchiku_eliminate(words: u32, plan: u32, first: u32, mask: u64; ; out: u64) {
        out: TALLIED,
        answers: &[0, 1, 2, 3, 4, 5, 6, 7, 8, 9, 10, 11],
        rule: |lent, _| going(lent, rules::eliminate, Answer::keeping),
    }
    Greedy = hollchiku_greedy(words: u32, plan: u32, first: u32, mask: u64; ; out: u64) {
        out: TALLIED,
        answers: &[0, 1, 2, 3, 4, 5, 6, 7, 8, 9, 10, 11],
        rule: |lent, _| going(lent, rules::greedy, Answer::keeping),
    }
    Exact = hollchiku_exact(words: u32, plan: u32, first: u32, mask: u64; ; out: u64) {
        out: TALLIED,
        answers: &[0, 1, 2, 3, 4, 5, 6, 7, 8, 9, 10, 11, 12],
        rule: |lent, _| going(lent, rules::exact, Answer::keeping),
        faster: |lent, _| going(lent, search::exact, Answer::keeping),
    }
    Cheaper = hollchiku_cheaper(words: u32, plan: u32, first: u32, second: u32; ; out: u64) {
        out: &["refusal number", "place", "cost", "steps", "second cost", "second steps"],
        answers: &[0, 1, 2, 3, 4, 5, 6, 7, 8, 9, 10, 11],
        rule: |lent, _| {
            let outputs = [lent.first.len(), lent.second.len()];
            rules::cheaper(&lent.words, &lent.plan, outputs).map(Answer::keeping_both)
        },
    }
    CheaperLeft = hollchiku_cheaper_left(words: u32, plan: u32, first: u32, mask: u64; ; out: u64) {
        out: TALLIED,
        answers: &[0, 1, 2, 3, 4, 5, 6, 7, 8, 9, 10, 11],
        rule: |lent, _| going(lent, rules::cheaper_left, Answer::keeping),
    }
    License = hollchiku_license(words: u32, plan: u32, first: u32, mask: u64; ; out: u64) {
        out: &["refusal number", "place", "cost", "steps", "claim", "open"],
        answers: &[0, 1, 2, 3, 4, 5, 6, 7, 8, 9, 10, 11],
        rule: |lent, _| going(lent, rules::license, Answer::licensed),
        faster: |lent, _| going(lent, rules::license_by_search, Answer::licensed),
    }
    KeptPart = hollchiku_kept_part(
        first: u32, second: u32; cost_a, steps_a, cost_b, steps_b; part: u32
    ) -> returned: u64 {
        out: &[],
        // The index of the output whose part is shown.
        answers: &[0, 1],
        rule: |lent, numbers| {
            let outputs = [&lent.first[..], &lent.second[..]];
            let (index, part) = rules::kept_part(outputs, tallies(numbers));
            let written = part.len().min(lent.part.len());
            Ok(Answer::showing(index, &part[..written]))
        },
    }
    Translate = hollchiku_translate(text: u8, first: u32; ; out: u64) {
        out: &["refusal number", "place", "words"],
        answers: &[0, 10, 13, 14, 15],
        places: (10, 100),
        places: (13, 200),
        places: (14, 100),
        rule: |lent, _| {
            rules::translate(&lent.text, lent.first.len()).map(Answer::translated)
        },
    }
}

/// What claims are counted under, and the numbers of them all: open, irreducible, least.
pub const CLAIM: &str = "license, claim";
pub const CLAIMS: &[u64] = &[0, 1, 2];
/// Where `out` of the licence has the claim.
pub const CLAIM_AT: usize = 4;

/// A tally that took the step, and one that came back unchanged.
const TAKEN: u64 = 0;
const LEFT: u64 = 1;

/// How the first of two tallies stands to the second.
const BELOW: u64 = 0;
const EQUAL: u64 = 1;
const ABOVE: u64 = 2;

/// A state shorter than 64 values reads as zero past its end.
pub fn step_if(test: impl Test, lent: &Memory, [action, ..]: Numbers) -> Result<Answer, Refusal> {
    let mut state: State = [0; MAX_VARIABLES];
    for (value, &lent) in state.iter_mut().zip(&lent.state[..]) {
        *value = lent;
    }
    rules::step_if(test, &lent.words, &mut state, action)?;
    Ok(Answer::accepted(&[]).with_state(&state))
}

fn tallies([cost, steps, second_cost, second_steps]: Numbers) -> [Tally; 2] {
    [[cost, steps], [second_cost, second_steps]].map(Tally::of)
}

fn tally_add(_: &Memory, numbers: Numbers) -> Result<Answer, Refusal> {
    let [before, _] = tallies(numbers);
    let after = before.add(numbers[2]);
    let number = if after == before { LEFT } else { TAKEN };
    Ok(Answer::telling([after.cost, after.steps], number))
}

fn tally_compare(_: &Memory, numbers: Numbers) -> Result<Answer, Refusal> {
    let [first, second] = tallies(numbers);
    Ok(Answer::returning(match first.cmp(&second) {
        Ordering::Less => BELOW,
        Ordering::Equal => EQUAL,
        Ordering::Greater => ABOVE,
    }))
}

/// What is answered by a way of striking or licensing.
pub fn going<A>(lent: &Memory, way: Way<A>, tell: fn(A) -> Answer) -> Result<Answer, Refusal> {
    way(&lent.words, &lent.plan, lent.first.len()).map(tell)
}

impl Service {
    pub fn declared(self) -> &'static Declared {
        &DECLARED[self as usize]
    }

    pub fn name(self) -> &'static str {
        let function = self.declared().function;
        function.strip_prefix("hollchiku_").unwrap_or(function)
    }

    pub fn takes(self, slice: &str) -> bool {
        self.declared().slices.contains(&slice)
    }

    pub fn takes_plan(self) -> bool {
        self.takes("plan")
    }

    pub fn refuses(self, cause: Cause) -> bool {
        self.declared().answers.contains(&(cause as u64))
    }

    /// The lengths of the slices that it writes to for this sheet and plan, with outputs of these
    /// lengths where it takes them.
    pub fn lengths(self, words: &[u32], plan: &[u32], outputs: [usize; 2]) -> Vec<usize> {
        let length = |&(slice, needed): &(&str, usize)| match slice {
            _ if !self.takes(slice) => 0,
            FIRST => outputs[0],
            SECOND => outputs[1],
            "states" => room_for_states(words, plan),
            "rows" => MOVE_WORDS * plan.len(),
            "out" => self.declared().out.len(),
            _ => needed,
        };
        WRITTEN.iter().map(length).collect()
    }
}

/// Of the states before each step and at the end. The sheet may be any words.
fn room_for_states(words: &[u32], plan: &[u32]) -> usize {
    let variables = words.get(VARIABLES_WORD).map_or(0, |&word| word as usize);
    variables.min(MAX_VARIABLES) * (plan.len() + 1)
}

/// Those that take a plan.
pub fn taking_plan() -> Vec<Service> {
    let services = SERVICES.iter().copied();
    services.filter(|it| it.takes_plan()).collect()
}

/// Those of them that refuse for this cause.
pub fn refusing(cause: Cause) -> Vec<Service> {
    let mut services = taking_plan();
    services.retain(|it| it.refuses(cause));
    services
}

/// Those that strike steps of a plan.
pub fn reducing() -> Vec<Service> {
    let mut services = taking_plan();
    services.retain(|it| it.takes(FIRST));
    services
}

/// A service and the numbers that it takes.
#[derive(Clone, Copy)]
pub struct Call {
    pub service: Service,
    pub numbers: Numbers,
}

impl Call {
    /// Has the library answer in this memory.
    pub fn by_library(self, memory: &mut Memory) {
        self.service.by_library(self.numbers, memory);
    }

    pub fn by_rules(self, lent: &Memory) -> Answer {
        self.by(self.service.declared().rule, lent)
    }

    /// By the way that is like the library's, if there is one.
    pub fn by_faster(self, lent: &Memory) -> Option<Answer> {
        let faster = self.service.declared().faster.first();
        faster.map(|&rule| self.by(rule, lent))
    }

    pub fn by(self, rule: Rule, lent: &Memory) -> Answer {
        Answer::of(self.service, rule(lent, self.numbers))
    }
}
