//! States and steps, the states along a plan, the check of a plan, the steps of it that a reduction
//! keeps, and tallies.

use super::task::Task;
use super::{check_sheet, refuse, split, Action, Cause, Refusal};
use super::{MAX_STEPS, MAX_TALLY_COST, MAX_VARIABLES};

/// Any 64 values; those past a task's variables mean nothing to it.
pub type State = [u32; MAX_VARIABLES];

/// A state as a value for each variable of its task, and none past them.
pub type Values = Vec<u32>;

/// A fact holds by equality of the whole value, which may be outside the domain.
pub fn holds(fact: u32, state: &State) -> bool {
    let (variable, value) = split(fact);
    state[variable] == value
}

/// A test whether all of these facts hold in a state. In which order it looks at them changes its
/// time, and no answer.
pub trait Test: Fn(&[u32], &State) -> bool + Copy {}

impl<T: Fn(&[u32], &State) -> bool + Copy> Test for T {}

/// The test of all services: the last fact is looked at first, as document 02 asks.
pub fn all_hold(facts: &[u32], state: &State) -> bool {
    facts.iter().rev().all(|&fact| holds(fact, state))
}

/// Does the step, unless a precondition fails: then the state stays and the answer is false.
pub fn do_step(action: Action, state: &mut State) -> bool {
    do_step_if(all_hold, action, state)
}

/// The same by any test.
pub fn do_step_if(test: impl Test, action: Action, state: &mut State) -> bool {
    let can_be_done = test(action.preconditions, state);
    if can_be_done {
        for &effect in action.effects {
            let (variable, value) = split(effect);
            state[variable] = value;
        }
    }
    can_be_done
}

/// One step on a lent state, by any test. Refusals 1 to 7, 9 and 11; the goal isn't looked at.
pub fn step_if(
    test: impl Test,
    words: &[u32],
    state: &mut State,
    action: u32,
) -> Result<(), Refusal> {
    let only_place = 1;
    let task = check_sheet(words)?;
    let action = action as usize;
    let unknown = action >= task.actions();
    refuse(Cause::UnknownAction, unknown.then_some(only_place))?;
    let done = do_step_if(test, task.action(action), state);
    refuse(Cause::NotValid, (!done).then_some(only_place))
}

/// The task of a sheet and the actions of a plan's steps, valid or not. Refusals 1 to 9; positions in
/// the plan count from 1.
pub fn read<'a>(words: &'a [u32], plan: &[u32]) -> Result<(Task<'a>, Vec<Action<'a>>), Refusal> {
    let task = check_sheet(words)?;
    let too_long = plan.len() > MAX_STEPS;
    refuse(Cause::PlanLength, too_long.then_some(MAX_STEPS))?;
    let unknown = plan.iter().position(|&a| a as usize >= task.actions());
    refuse(Cause::UnknownAction, unknown.map(|index| index + 1))?;
    let actions = plan.iter().map(|&a| task.action(a as usize)).collect();
    Ok((task, actions))
}

/// The states along a plan: the starting values and the state after each step, up to the first that
/// can't be done. The goal isn't looked at.
pub fn course(words: &[u32], plan: &[u32]) -> Result<Vec<Values>, Refusal> {
    course_if(all_hold, words, plan)
}

/// The same by any test.
pub fn course_if(test: impl Test, words: &[u32], plan: &[u32]) -> Result<Vec<Values>, Refusal> {
    let (task, actions) = read(words, plan)?;
    let values = |state: &State| state[..task.sizes().len()].to_vec();
    let mut state = task.start();
    let mut states = vec![values(&state)];
    for action in actions {
        if !do_step_if(test, action, &mut state) {
            break;
        }
        states.push(values(&state));
    }
    Ok(states)
}

/// A valid plan of a task, with the actions of its steps and its end state.
pub struct Lodged<'a> {
    pub task: Task<'a>,
    pub plan: &'a [u32],
    pub actions: Vec<Action<'a>>,
    pub end: State,
}

impl<'a> Lodged<'a> {
    /// Refusals 1 to 11; 10 is for services with outputs, whose lengths are passed.
    pub fn check(words: &'a [u32], plan: &'a [u32], outputs: &[usize]) -> Result<Self, Refusal> {
        let (task, actions) = read(words, plan)?;
        let steps = plan.len();
        let too_short = outputs.iter().any(|&length| length < steps);
        refuse(Cause::ShortOutput, too_short.then_some(steps))?;
        let mut end = task.start();
        let failing = actions.iter().position(|&a| !do_step(a, &mut end));
        refuse(Cause::NotValid, failing.map(|index| index + 1))?;
        let unmet = !all_hold(task.goal(), &end);
        refuse(Cause::NotValid, unmet.then_some(steps + 1))?;
        Ok(Lodged {
            task,
            plan,
            actions,
            end,
        })
    }

    pub fn cost(&self) -> usize {
        self.actions.iter().map(|action| action.cost).sum()
    }

    /// What a way of striking keeps; it answers with the indices of the steps.
    pub fn kept(&self, way: impl Fn(&Self) -> Vec<usize>) -> Kept {
        self.keeping(&way(self))
    }

    /// What is kept where the steps with these indices are.
    pub fn keeping(&self, steps: &[usize]) -> Kept {
        Kept::of(self.plan, steps, |step| self.actions[step].cost)
    }
}

/// What a reduction keeps.
#[derive(Clone, PartialEq)]
pub struct Kept {
    pub cost: usize,
    /// The kept action numbers, in the order of the plan.
    pub actions: Vec<u32>,
    pub mask: Mask,
}

impl Kept {
    /// The steps with these indices, each at its cost.
    pub fn of(plan: &[u32], steps: &[usize], cost: impl Fn(usize) -> usize) -> Self {
        Kept {
            cost: steps.iter().map(|&step| cost(step)).sum(),
            actions: steps.iter().map(|&step| plan[step]).collect(),
            mask: mask_of(steps.iter().copied()),
        }
    }

    /// Its cost and its steps, in the order that they are compared in.
    pub fn tally(&self) -> [usize; 2] {
        [self.cost, self.actions.len()]
    }

    /// The indices of the kept steps.
    pub fn steps(&self) -> impl Iterator<Item = usize> + '_ {
        (0..MAX_STEPS).filter(|&step| has(&self.mask, step))
    }
}

/// One bit for each step of a plan, from the lowest of the first word on.
pub type Mask = [u64; MASK_WORDS];

pub const MASK_WORDS: usize = 4;
pub const WORD_BITS: usize = u64::BITS as usize;

/// The mask of the steps with these indices.
pub fn mask_of(indices: impl Iterator<Item = usize>) -> Mask {
    let mut mask = [0; MASK_WORDS];
    for index in indices {
        mask[index / WORD_BITS] |= 1 << (index % WORD_BITS);
    }
    mask
}

/// Whether a set of bits, such as a mask, has the one with this index.
pub fn has(bits: &[u64], index: usize) -> bool {
    bits[index / WORD_BITS] >> (index % WORD_BITS) & 1 == 1
}

/// A tally may hold any words. The fields stand in the order that two tallies are compared in.
#[derive(Clone, Copy, PartialEq, Eq, PartialOrd, Ord)]
pub struct Tally {
    pub cost: u32,
    pub steps: u32,
}

impl Tally {
    pub fn of([cost, steps]: [u32; 2]) -> Self {
        Tally { cost, steps }
    }

    /// One step more, or the same tally when it is full or its cost would pass the limit.
    pub fn add(self, cost: u32) -> Self {
        let total = self.cost as usize + cost as usize;
        if self.steps as usize >= MAX_STEPS || total > MAX_TALLY_COST {
            return self;
        }
        Tally::of([total as u32, self.steps + 1])
    }
}
