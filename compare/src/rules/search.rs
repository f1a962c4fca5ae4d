//! The exact reduction by a search like the library's, so that the two can be timed against each
//! other: depth first, from unmarked step to unmarked step, and a step is struck before it is kept.
//! Its answers are held to those of the rules, which know nothing of its cuts.
//!
//! All marked steps are kept, so a reduction is a word that says which unmarked steps are kept. What
//! the marked steps between two unmarked ones write is written at once, and neither they nor the goal
//! are tested: of a valid plan, what passes the tests of the turns is valid.

use super::blocks::{Block, Blocks, Bytes};
use super::{has, mask_of, Kept, Lodged, Mask, Refusal, Tally};
use std::cell::Cell;
use std::ops::Range;

/// Refusals 1 to 12.
#[inline(never)]
pub fn exact(words: &[u32], plan: &[u32], output: usize) -> Result<Kept, Refusal> {
    let (lodged, marked) = check(words, plan, output)?;
    Ok(lodged.kept(|lodged| lodged.least_by_search(marked)))
}

/// How many turns the search takes, unless the plan is refused.
pub fn turns(words: &[u32], plan: &[u32]) -> Result<u64, Refusal> {
    let (lodged, marked) = check(words, plan, plan.len())?;
    let search = Search::<true>::of(&lodged, marked);
    search.run();
    Ok(search.turns.get())
}

/// The plan with its marks, which are found by passes.
fn check<'a>(
    words: &'a [u32],
    plan: &'a [u32],
    output: usize,
) -> Result<(Lodged<'a>, Mask), Refusal> {
    let lodged = Lodged::check(words, plan, &[output])?;
    let (marked, _) = lodged.marked_by_passes();
    lodged.check_marks(marked)?;
    Ok((lodged, marked))
}

impl Lodged<'_> {
    /// The exact reduction as the steps that it keeps; no more than 32 steps are unmarked.
    pub fn least_by_search(&self, marked: Mask) -> Vec<usize> {
        Search::<false>::of(self, marked).run()
    }
}

/// A choice of unmarked steps, with the tally of the reduction that keeps them and the marked ones.
#[derive(Clone, Copy)]
struct Choice {
    tally: Tally,
    /// The bit of each unmarked step that is kept.
    kept: u32,
}

impl Choice {
    /// No unmarked step is kept yet.
    fn of_marks(lodged: &Lodged, marked: Mask) -> Self {
        let steps = lodged.actions.iter().enumerate();
        let marked = steps.filter(|&(step, _)| has(&marked, step));
        let nothing = Tally { cost: 0, steps: 0 };
        Choice {
            tally: marked.fold(nothing, |tally, (_, action)| tally.add(action.cost as u32)),
            kept: 0,
        }
    }

    fn keeping(self, number: usize, cost: u32) -> Self {
        Choice {
            tally: self.tally.add(cost),
            kept: self.kept | 1 << number,
        }
    }

    fn keeps(&self, number: usize) -> bool {
        self.kept >> number & 1 == 1
    }

    fn is_lower_than(&self, other: &Self) -> bool {
        self.tally < other.tally
    }
}

/// Turns are counted or cost nothing: a figure that is the same in each run and on each machine.
struct Search<const COUNTS: bool> {
    /// The steps of the plan, and those that are not marked, by their number.
    steps: Range<usize>,
    unmarked: Vec<usize>,
    /// The choice that keeps nothing unmarked.
    marks: Choice,
    blocks: Blocks,
    turns: Cell<u64>,
}

impl<const COUNTS: bool> Search<COUNTS> {
    fn of(lodged: &Lodged, marked: Mask) -> Self {
        let steps = 0..lodged.actions.len();
        Search {
            marks: Choice::of_marks(lodged, marked),
            blocks: Blocks::of(lodged, marked),
            unmarked: steps.clone().filter(|&step| !has(&marked, step)).collect(),
            steps,
            turns: Cell::new(0),
        }
    }

    fn count_turn(&self) {
        if COUNTS {
            self.turns.update(|turns| turns + 1);
        }
    }

    /// The best so far is at first the lodged plan. Answers with the steps that are kept.
    fn run(&self) -> Vec<usize> {
        let blocks = self.blocks.of_steps.iter().enumerate();
        let lodged = blocks.fold(self.marks, |choice, (number, block)| {
            choice.keeping(number, block.cost)
        });
        let best = self.turns(0, &self.blocks.first_state, self.marks, lodged);
        let unmarked = self.unmarked.iter().enumerate();
        let struck = unmarked.filter(|&(number, _)| !best.keeps(number));
        let struck = mask_of(struck.map(|(_, &step)| step));
        let steps = self.steps.clone();
        steps.filter(|&step| !has(&struck, step)).collect()
    }

    /// None behind the last unmarked step.
    fn block(&self, number: usize) -> Option<&Block> {
        self.blocks.of_steps.get(number)
    }

    /// The two turns at an unmarked step, in the state before it. Answers with the best choice, which
    /// stays until a lower one is found.
    fn turns(&self, number: usize, state: &Bytes, choice: Choice, best: Choice) -> Choice {
        let best = self.strike(number, state, choice, best);
        self.keep(number, state, choice, best)
    }

    /// The striking turn: each fact that is wanted behind the step holds already. At the end the
    /// choice is taken where it is lower.
    fn strike(&self, number: usize, state: &Bytes, choice: Choice, best: Choice) -> Choice {
        self.count_turn();
        let Some(block) = self.block(number) else {
            let is_new = choice.is_lower_than(&best);
            return if is_new { choice } else { best };
        };
        if !block.strike.all_holds_in(state) {
            return best;
        }
        let next = block.struck.over(state);
        self.turns(number + 1, &next, choice, best)
    }

    /// The keeping turn: the step can be done, and it gives a fact that is needed behind it and does
    /// not hold. At the end there is nothing to keep.
    fn keep(&self, number: usize, state: &Bytes, choice: Choice, best: Choice) -> Choice {
        self.count_turn();
        let Some(block) = self.block(number) else {
            return best;
        };
        let longer = choice.keeping(number, block.cost);
        let may_keep = longer.is_lower_than(&best)
            && block.keep.all_holds_in(state)
            && !block.using.all_holds_in(state);
        if !may_keep {
            return best;
        }
        let next = block.kept.over(state);
        self.turns(number + 1, &next, longer, best)
    }
}
