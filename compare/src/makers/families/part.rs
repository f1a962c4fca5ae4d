//! The part that a family has in a plan, and how it is laid into the chain.

use crate::makers::{fact, Action, Fact, Known, List, Task};

/// What a family brings to a plan; its variables start at 0.
#[derive(Default)]
pub struct Part {
    pub sizes: Vec<u32>,
    pub goal: Vec<Fact>,
    pub actions: Vec<Action>,
    /// The action of each step.
    pub steps: Vec<u32>,
    /// How many of the steps are marked.
    pub marked: usize,
    /// Whether each step is kept.
    pub kept: Option<Vec<bool>>,
    /// How many of the last steps stand behind the chain in any case.
    pub late: usize,
    /// The facts that the chain's last step sets beside its own.
    pub opened: Vec<Fact>,
    /// The facts that the chain's last step needs and the one before it sets.
    pub set_again: Vec<Fact>,
}

impl Part {
    /// One step of each action, and a goal that asks for all variables.
    pub fn asking_for(goals: usize, actions: Vec<Action>, kept: Option<Vec<bool>>) -> Self {
        Part {
            sizes: vec![2; goals],
            goal: (0..goals).map(|goal| fact(goal, 1)).collect(),
            steps: (0..actions.len() as u32).collect(),
            actions,
            kept,
            ..Part::default()
        }
    }

    /// Gives the last steps of the chain what the family has them do beside counting.
    pub fn put_into(&self, chain: &mut [Action]) {
        let Some((last, before)) = chain.split_last_mut() else {
            return;
        };
        last.effects.splice(0..0, self.opened.iter().copied());
        if let Some(setter) = before.last_mut() {
            let facts = self.set_again.iter().copied();
            last.preconditions.splice(0..0, facts.clone());
            setter.effects.splice(0..0, facts);
        }
    }

    /// The steps of the family at their turns and, between them, those of the chain, whose actions
    /// are the last ones.
    pub fn laid_into(self, first_of_chain: u32, turns: &[bool]) -> List {
        let unmarked = self.steps.len() - self.marked;
        let is_known = self.kept.is_some();
        let flags = self.kept.unwrap_or(vec![false; self.steps.len()]);
        let mut own = self.steps.into_iter().zip(flags);
        let mut chain = (first_of_chain..).map(|action| (action, true));
        let (mut plan, mut kept) = (Vec::new(), Vec::new());
        for (step, &is_own) in turns.iter().enumerate() {
            let next = if is_own { own.next() } else { chain.next() };
            let (action, is_kept) = next.expect("the family has as many steps as turns");
            plan.push(action);
            if is_kept {
                kept.push(step);
            }
        }
        let known = Known {
            unmarked: Some(unmarked),
            exact: is_known.then_some(kept),
            ..Known::default()
        };
        let task = Task::from_zero(self.sizes, self.goal, self.actions);
        List { task, plan, known }
    }
}
