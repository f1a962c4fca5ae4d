//! The exact reduction, which the field calls the minimal one: of all valid reductions the lowest
//! cost, then the fewest steps; among those still equal, at the first step where two differ, the one
//! that strikes it. Neither way of finding it knows anything of marks, so that a fault in the marks
//! can't hide in it; they are only counted.
//!
//! Long plans are gone through by the states that reductions of the plan's front reach. What stands
//! behind is the same for all that reach one state, so of those only the least can become the exact
//! one.

use super::{all_hold, do_step, has, refuse, split, Action, Cause, Kept, Lodged, Mask};
use super::{Refusal, State, FACT_BASE, MASK_WORDS, MAX_UNMARKED, MAX_VARIABLES, WORD_BITS};
use std::collections::hash_map::{Entry, HashMap};

/// Plans of so many steps have all their reductions gone through; longer ones would take too long.
const FEW_STEPS: usize = 9;

/// Refusals 1 to 12.
pub fn exact(words: &[u32], plan: &[u32], output: usize) -> Result<Kept, Refusal> {
    Ok(Lodged::check_unmarked(words, plan, output)?.kept(Lodged::least))
}

impl<'a> Lodged<'a> {
    /// Refusals 1 to 12.
    pub fn check_unmarked(
        words: &'a [u32],
        plan: &'a [u32],
        output: usize,
    ) -> Result<Self, Refusal> {
        let lodged = Lodged::check(words, plan, &[output])?;
        lodged.check_marks(lodged.marked())?;
        Ok(lodged)
    }

    /// Refusal 12, by these marks.
    pub fn check_marks(&self, marked: Mask) -> Result<(), Refusal> {
        let unmarked = self.outside(marked);
        let too_many = unmarked > MAX_UNMARKED;
        refuse(Cause::Unmarked, too_many.then_some(unmarked))
    }

    /// How many steps are not in the mask.
    pub fn outside(&self, mask: Mask) -> usize {
        let inside: u32 = mask.iter().map(|word| word.count_ones()).sum();
        self.actions.len() - inside as usize
    }

    pub fn unmarked(&self) -> usize {
        self.outside(self.marked())
    }

    /// The exact reduction as the steps that it keeps.
    pub fn least(&self) -> Vec<usize> {
        match self.actions.len() <= FEW_STEPS {
            true => self.least_of_all(),
            false => self.least_by_states(),
        }
    }

    /// The same, found among all reductions: a reduction is told by a flag for each step, and of
    /// two lists of flags the one that strikes at the first difference is the lesser.
    pub fn least_of_all(&self) -> Vec<usize> {
        let valid = self.valid_reductions();
        let least = valid.min_by_key(|kept| (self.counts(kept), kept.clone()));
        steps_of(&least.expect("the plan itself is a valid reduction"))
    }

    /// All of them; the plan has fewer than 32 steps.
    pub fn valid_reductions(&self) -> impl Iterator<Item = Vec<bool>> + '_ {
        let steps = self.actions.len();
        let flags = move |bits| (0..steps).map(|i| bits >> i & 1 == 1).collect();
        let all = (0..1_u32 << steps).map(flags);
        all.filter(|kept: &Vec<bool>| self.is_valid(kept))
    }

    pub fn is_valid(&self, kept: &[bool]) -> bool {
        let mut state = self.task.start();
        let steps = steps_of(kept);
        let done = steps.iter().all(|&i| do_step(self.actions[i], &mut state));
        done && all_hold(self.task.goal(), &state)
    }

    /// The cost and the number of the steps that are kept.
    pub fn counts(&self, kept: &[bool]) -> (usize, usize) {
        self.tally(&steps_of(kept))
    }
}

pub fn steps_of(kept: &[bool]) -> Vec<usize> {
    (0..kept.len()).filter(|&step| kept[step]).collect()
}

/// A reduction of the plan's front. The fields stand in the order that they are compared in.
#[derive(Clone, Copy, Default, PartialEq, Eq, PartialOrd, Ord)]
struct Front {
    cost: usize,
    steps: usize,
    /// The first step is the highest bit: of two that differ, the one that strikes at the first
    /// difference is the lesser.
    kept: [u64; MASK_WORDS],
}

impl Front {
    fn keeping(mut self, step: usize, action: Action) -> Self {
        self.cost += action.cost;
        self.steps += 1;
        self.kept[step / WORD_BITS] |= 1 << (WORD_BITS - 1 - step % WORD_BITS);
        self
    }

    fn keeps(&self, step: usize) -> bool {
        self.kept[step / WORD_BITS] >> (WORD_BITS - 1 - step % WORD_BITS) & 1 == 1
    }
}

/// The least reduction of the front for each state that one reaches.
type Fronts = HashMap<State, Front>;

impl Lodged<'_> {
    /// The exact reduction as the steps that it keeps.
    pub fn least_by_states(&self) -> Vec<usize> {
        let mut fronts = Fronts::from([(self.task.start(), Front::default())]);
        for step in 0..self.actions.len() {
            fronts = self.with_step(step, fronts);
        }
        let goal = self.task.goal();
        let valid = fronts.iter().filter(|(state, _)| all_hold(goal, state));
        let least = valid.map(|(_, front)| front).min();
        let least = least.expect("the plan itself is a valid reduction");
        (0..self.actions.len())
            .filter(|&i| least.keeps(i))
            .collect()
    }

    /// The fronts with one step more, which each of them strikes and, where it can be done, keeps.
    fn with_step(&self, step: usize, fronts: Fronts) -> Fronts {
        let action = self.actions[step];
        let rest = Rest::of(self, step + 1);
        let mut longer = Fronts::with_capacity(fronts.len());
        for (state, front) in fronts {
            rest.offer(&mut longer, state, front);
            let mut after = state;
            if do_step(action, &mut after) {
                rest.offer(&mut longer, after, front.keeping(step, action));
            }
        }
        longer
    }
}

/// What stands behind a front.
struct Rest<'a> {
    actions: &'a [Action<'a>],
    goal: &'a [u32],
    /// The variables that a later step or the goal looks at.
    looked_at: [bool; MAX_VARIABLES],
}

impl<'a> Rest<'a> {
    fn of(lodged: &'a Lodged, first: usize) -> Self {
        let actions = &lodged.actions[first..];
        let goal = lodged.task.goal();
        let mut looked_at = [false; MAX_VARIABLES];
        let conditions = actions.iter().flat_map(|action| action.preconditions);
        for &fact in conditions.chain(goal) {
            looked_at[split(fact).0] = true;
        }
        Rest {
            actions,
            goal,
            looked_at,
        }
    }

    /// Takes a front up, unless nothing valid comes of it or a lesser one reaches the same state.
    /// Values that nothing looks at again count as zero, so that fewer states differ.
    fn offer(&self, fronts: &mut Fronts, mut state: State, front: Front) {
        if !self.may_reach_goal(&state) {
            return;
        }
        for (value, looked_at) in state.iter_mut().zip(self.looked_at) {
            *value *= u32::from(looked_at);
        }
        match fronts.entry(state) {
            Entry::Vacant(entry) => {
                entry.insert(front);
            }
            Entry::Occupied(mut entry) => {
                let least = front.min(*entry.get());
                entry.insert(least);
            }
        }
    }

    /// False only where no reduction of the rest is valid: one that is reaches no fact that isn't
    /// reached here, where facts stay once they are reached and every step is done that can be.
    fn may_reach_goal(&self, state: &State) -> bool {
        let mut reached = Facts::of(state);
        for action in self.actions {
            if reached.have_all(action.preconditions) {
                reached.add(action.effects);
            }
        }
        reached.have_all(self.goal)
    }
}

/// A set of facts, one bit for each word.
struct Facts([u64; MAX_VARIABLES * FACT_BASE / WORD_BITS]);

impl Facts {
    /// All that hold in a state.
    fn of(state: &State) -> Self {
        let mut facts = Facts([0; MAX_VARIABLES * FACT_BASE / WORD_BITS]);
        for (variable, &value) in state.iter().enumerate() {
            facts.add(&[(variable * FACT_BASE) as u32 + value]);
        }
        facts
    }

    fn have_all(&self, facts: &[u32]) -> bool {
        facts.iter().all(|&fact| has(&self.0, fact as usize))
    }

    fn add(&mut self, facts: &[u32]) {
        for fact in facts.iter().map(|&fact| fact as usize) {
            self.0[fact / WORD_BITS] |= 1 << (fact % WORD_BITS);
        }
    }
}
