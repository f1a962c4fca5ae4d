//! The moves of a plan: what each costs, what becomes of it by a mask, and the tallies up to it.

use super::{read, Refusal, WORD_BITS};

/// The words of a move: its cost, whether it is kept, whether it is marked, and three tallies.
pub const MOVE_WORDS: usize = 9;

pub struct Moves {
    pub rows: Vec<[u32; MOVE_WORDS]>,
    /// The tally of all that is struck.
    pub saved: [usize; 2],
}

/// Refusals 1 to 9. Each tally is summed afresh, of all steps, of those kept and of those struck.
pub fn moves(words: &[u32], plan: &[u32], kept: &[u64], marked: &[u64]) -> Result<Moves, Refusal> {
    let (_, actions) = read(words, plan)?;
    let is_kept = |step: &usize| is_up(kept, *step);
    let is_struck = |step: &usize| !is_up(kept, *step);
    let tally = |steps: Vec<usize>| {
        let cost = steps.iter().map(|&step| actions[step].cost).sum();
        [cost, steps.len()]
    };
    let row = |step: usize| {
        let tallies = [
            tally((0..=step).collect()),
            tally((0..=step).filter(is_kept).collect()),
            tally((0..=step).filter(is_struck).collect()),
        ];
        let flags = [kept, marked].map(|mask| usize::from(is_up(mask, step)));
        let words = [&[actions[step].cost], &flags[..], &tallies.concat()].concat();
        std::array::from_fn(|word| words[word] as u32)
    };
    Ok(Moves {
        rows: (0..plan.len()).map(row).collect(),
        saved: tally((0..plan.len()).filter(is_struck).collect()),
    })
}

/// Whether a mask of any number of words has the bit of a step.
fn is_up(mask: &[u64], step: usize) -> bool {
    let word = mask.get(step / WORD_BITS).copied().unwrap_or(0);
    word >> (step % WORD_BITS) & 1 == 1
}
