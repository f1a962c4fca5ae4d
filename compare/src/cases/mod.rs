//! Cases: calls of services with all that is lent to them and, where the way that a case was made
//! tells it, the answer that is due.

mod answer;
pub mod damaged;
pub mod kinds;
mod known;
mod memory;
mod service;
pub mod worked;

pub use memory::{Answer, Lent, Memory, WRITTEN};
pub use service::{going, reducing, refusing, step_if, taking_plan, Call, Numbers, Rule, Service};
pub use service::{CLAIM, CLAIMS, CLAIM_AT, FIRST, SECOND, SERVICES};

use crate::rules::Refusal;

pub struct Case {
    pub call: Call,
    /// As it stands before the call; a slice that the service doesn't take is empty.
    pub lent: Memory,
    pub due: Option<Answer>,
}

impl Case {
    /// A case with these lengths of what the service writes to, full of words by the filler.
    pub fn filled(
        service: Service,
        words: &[u32],
        plan: &[u32],
        lengths: &[usize],
        filler: impl FnMut() -> u64,
    ) -> Self {
        let lent = Memory {
            words: Lent::of(words),
            plan: Lent::of(plan),
            ..Memory::filled(lengths, filler)
        };
        let numbers = [0; 4];
        let call = Call { service, numbers };
        let due = None;
        Case { call, lent, due }
    }

    /// The lengths are those that the service needs, and the words are such as no answer has.
    pub fn fitting(service: Service, words: &[u32], plan: &[u32], outputs: [usize; 2]) -> Self {
        let lengths = service.lengths(words, plan, outputs);
        Case::filled(service, words, plan, &lengths, || u64::MAX)
    }

    /// A case that takes neither a sheet nor a plan, with an output of this length if it takes one.
    pub fn without_sheet(service: Service, output: usize) -> Self {
        Case::fitting(service, &[], &[], [output, 0])
    }

    /// A case of the kept part of these outputs.
    pub fn of_parts([first, second]: [Vec<u32>; 2], part: Vec<u32>) -> Self {
        let mut case = Case::without_sheet(Service::KeptPart, 0);
        case.lent.first = Lent::of(first);
        case.lent.second = Lent::of(second);
        case.lent.part = Lent::of(part);
        case
    }

    pub fn with_numbers(mut self, numbers: Numbers) -> Self {
        self.call.numbers = numbers;
        self
    }

    pub fn with_state(mut self, state: &[u32]) -> Self {
        self.lent.state = Lent::of(state);
        self
    }

    pub fn with_text(mut self, text: &[u8]) -> Self {
        self.lent.text = Lent::of(text);
        self
    }

    pub fn due(self, answer: Answer) -> Self {
        let due = Some(answer);
        Case { due, ..self }
    }

    /// The case was made to be refused.
    pub fn refused(self, refusal: Refusal) -> Self {
        let answer = Answer::refused(self.call.service, refusal);
        self.due(answer)
    }
}
