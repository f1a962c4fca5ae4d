//! The forms that answers have, told alike by the rules and by the makers of cases.

use super::{Answer, Service};
use crate::rules::{Kept, Licensed, Mask, Moves, Refusal, Values};

impl Answer {
    /// The number and the place are zero, and these counts stand behind them.
    pub fn accepted(counts: &[usize]) -> Self {
        let counts = counts.iter().map(|&count| count as u64);
        Answer {
            out: [0, 0].into_iter().chain(counts).collect(),
            ..Answer::default()
        }
    }

    /// Counts and masks are zero, outputs stay, one step leaves the state, and a plan's end state is
    /// zero. What the service doesn't take has no room for the zeros.
    pub fn refused(service: Service, refusal: Refusal) -> Self {
        let number = refusal.cause as u64;
        let mut out = vec![number, refusal.place as u64];
        out.resize(service.declared().out.len(), 0);
        Answer {
            out,
            number,
            ..Answer::zeros()
        }
    }

    pub fn of(service: Service, answer: Result<Self, Refusal>) -> Self {
        answer.unwrap_or_else(|refusal| Answer::refused(service, refusal))
    }

    /// A tally; the answer is counted under the number.
    pub fn telling(out: [u32; 2], number: u64) -> Self {
        Answer {
            out: out.map(u64::from).to_vec(),
            number,
            ..Answer::default()
        }
    }

    pub fn returning(returned: u64) -> Self {
        Answer {
            returned,
            number: returned,
            ..Answer::default()
        }
    }

    /// The part of the output with this index, as far as there is room for it.
    pub fn showing(index: usize, part: &[u32]) -> Self {
        Answer {
            part: part.to_vec(),
            returned: part.len() as u64,
            number: index as u64,
            ..Answer::default()
        }
    }

    pub fn with_state(self, state: &[u32]) -> Self {
        let state = state.to_vec();
        Answer { state, ..self }
    }

    /// The tally and the end state of a valid plan.
    pub fn valid(cost: usize, steps: usize, end: &[u32]) -> Self {
        Answer {
            end: end.to_vec(),
            ..Answer::accepted(&[cost, steps])
        }
    }

    /// The states along a plan, one behind the other, and how many they are.
    pub fn passing(states: &[Values]) -> Self {
        Answer {
            states: states.concat(),
            ..Answer::accepted(&[states.len()])
        }
    }

    /// A row for each move of a plan, and the tally of those that are struck.
    pub fn moving(Moves { rows, saved }: Moves) -> Self {
        Answer {
            rows: rows.concat(),
            ..Answer::accepted(&saved)
        }
    }

    pub fn marking(mask: Mask) -> Self {
        Answer {
            mask: mask.to_vec(),
            ..Answer::accepted(&[])
        }
    }

    pub fn keeping(kept: Kept) -> Self {
        Answer {
            mask: kept.mask.to_vec(),
            ..Answer::accepted(&kept.tally()).with_first(kept.actions)
        }
    }

    /// The claim stands behind the tally.
    pub fn licensed(Licensed { claim, kept }: Licensed) -> Self {
        let counts = [kept.tally(), claim.numbers()].concat();
        Answer {
            out: Answer::accepted(&counts).out,
            ..Answer::keeping(kept)
        }
    }

    pub fn keeping_both([first, second]: [Kept; 2]) -> Self {
        let counts = [first.tally(), second.tally()].concat();
        Answer {
            second: second.actions,
            ..Answer::accepted(&counts).with_first(first.actions)
        }
    }

    /// The words of a sheet, and how many they are.
    pub fn translated(words: Vec<u32>) -> Self {
        Answer::accepted(&[words.len()]).with_first(words)
    }

    fn with_first(self, first: Vec<u32>) -> Self {
        Answer { first, ..self }
    }
}
