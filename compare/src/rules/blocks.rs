//! What the search tests a state with at each unmarked step, and what it writes over it.

use super::{has, split, Lodged, Mask, State, FACT_BASE, MAX_VARIABLES};
use std::array::from_fn;
use std::hint::select_unpredictable;

/// A byte for each variable, since a domain has at most 256 values: the state that the search
/// carries is small enough to be made anew at each turn.
pub type Bytes = [u8; MAX_VARIABLES];

fn bytes_of(state: State) -> Bytes {
    state.map(|value| value as u8)
}

/// Facts, by their variables. Tests and writes have no branches, so that they take many variables at
/// once, and as long for one fact as for 64.
#[derive(Clone, Copy)]
pub struct Row {
    /// 1 where there is a fact of the variable, else 0.
    asked: Bytes,
    value: Bytes,
}

impl Row {
    const EMPTY: Self = Row {
        asked: [0; MAX_VARIABLES],
        value: [0; MAX_VARIABLES],
    };

    fn of<'a>(facts: impl IntoIterator<Item = &'a u32>) -> Self {
        let mut row = Self::EMPTY;
        row.put(facts);
        row
    }

    /// Later facts stand over earlier ones of the same variable.
    fn put<'a>(&mut self, facts: impl IntoIterator<Item = &'a u32>) {
        for &fact in facts {
            let (variable, value) = split(fact);
            self.asked[variable] = 1;
            self.value[variable] = value as u8;
        }
    }

    pub fn all_holds_in(&self, state: &Bytes) -> bool {
        let fails = |variable| {
            let is_other = state[variable] != self.value[variable];
            u8::from((self.asked[variable] != 0) & is_other)
        };
        (0..MAX_VARIABLES).map(fails).sum::<u8>() == 0
    }

    /// The state with these facts written over it. An `if` would become a branch for each variable.
    pub fn over(&self, state: &Bytes) -> Bytes {
        from_fn(|variable| {
            let is_asked = self.asked[variable] != 0;
            select_unpredictable(is_asked, self.value[variable], state[variable])
        })
    }
}

/// An unmarked step.
pub struct Block {
    pub cost: u32,
    /// The effect facts that are wanted behind the step.
    pub strike: Row,
    /// The preconditions.
    pub keep: Row,
    /// The effect facts that are of use behind the step.
    pub using: Row,
    /// What the marked steps behind it write, up to the next unmarked one.
    pub struck: Row,
    /// What the step writes, and then those marked ones.
    pub kept: Row,
}

pub struct Blocks {
    /// Before the first unmarked step.
    pub first_state: Bytes,
    /// By the number of the unmarked step.
    pub of_steps: Vec<Block>,
}

impl Blocks {
    pub fn of(lodged: &Lodged, marked: Mask) -> Self {
        let behind = behind(lodged, marked);
        let mut in_front = Row::EMPTY;
        let mut of_steps: Vec<Block> = Vec::new();
        for (step, action) in lodged.actions.iter().enumerate() {
            let is_marked = has(&marked, step);
            match of_steps.last_mut() {
                None if is_marked => in_front.put(action.effects),
                Some(block) if is_marked => {
                    block.struck.put(action.effects);
                    block.kept.put(action.effects);
                }
                _ => of_steps.push(Block {
                    cost: action.cost as u32,
                    strike: Row::of(chosen(action.effects, behind[step].wanted)),
                    keep: Row::of(action.preconditions),
                    using: Row::of(chosen(action.effects, behind[step].used)),
                    struck: Row::EMPTY,
                    kept: Row::of(action.effects),
                }),
            }
        }
        Blocks {
            first_state: in_front.over(&bytes_of(lodged.task.start())),
            of_steps,
        }
    }
}

/// The facts whose bits are set.
fn chosen(facts: &[u32], bits: u64) -> impl Iterator<Item = &u32> {
    let is_chosen = move |&(k, _): &(usize, _)| bits >> k & 1 == 1;
    let facts = facts.iter().enumerate();
    facts.filter(is_chosen).map(|(_, fact)| fact)
}

/// What is asked behind a step of the facts of its effect, a bit for each: whether it is wanted, that
/// is needed by a marked step or the goal before another step between them writes it, and whether it
/// is of use, that is needed by any step or the goal.
#[derive(Clone, Copy, Default)]
struct Behind {
    wanted: u64,
    used: u64,
}

fn behind(lodged: &Lodged, marked: Mask) -> Vec<Behind> {
    let [mut wanted, mut used] = [(); 2].map(|_| Facts::none());
    wanted.set(lodged.task.goal(), true);
    used.set(lodged.task.goal(), true);
    let mut table = vec![Behind::default(); lodged.actions.len()];
    for (step, action) in lodged.actions.iter().enumerate().rev() {
        table[step] = Behind {
            wanted: wanted.bits_of(action.effects),
            used: used.bits_of(action.effects),
        };
        wanted.set(action.effects, false);
        if has(&marked, step) {
            wanted.set(action.preconditions, true);
        }
        used.set(action.preconditions, true);
    }
    table
}

/// A set of facts, by their words.
struct Facts(Vec<bool>);

impl Facts {
    fn none() -> Self {
        Facts(vec![false; MAX_VARIABLES * FACT_BASE])
    }

    fn set(&mut self, facts: &[u32], is_in: bool) {
        for &fact in facts {
            self.0[fact as usize] = is_in;
        }
    }

    /// Bit k says whether the k-th fact is in the set.
    fn bits_of(&self, facts: &[u32]) -> u64 {
        let is_in = |&fact: &u32| u64::from(self.0[fact as usize]);
        let bits = facts.iter().enumerate();
        bits.fold(0, |bits, (k, fact)| bits | is_in(fact) << k)
    }
}
