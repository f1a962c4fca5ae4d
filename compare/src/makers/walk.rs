//! Plans made by walks of applicable actions, and ways to spoil them.

use super::{fit, set, Fact, Random, Task};
use crate::rules::{self, Cause, Refusal, State};

/// A task with a plan of it whose every step can be done.
pub struct Walk {
    pub task: Task,
    pub plan: Vec<u32>,
    /// The state before each step, then the end state.
    pub states: Vec<State>,
}

impl Walk {
    /// The walk of these steps, which can be done.
    pub fn of(task: Task, plan: &[u32]) -> Self {
        let mut walk = Walk {
            plan: Vec::new(),
            states: vec![task.start()],
            task,
        };
        walk.insert(0, plan);
        walk
    }

    /// A walk of `length` steps, whose task has the goal of its end state.
    pub fn random(random: &mut Random, length: usize) -> Option<Self> {
        let task = Task::random(random);
        if task.actions.is_empty() && length > 0 {
            return None;
        }
        let mut used = vec![false; task.actions.len()];
        let mut walk = Walk::of(task, &[]);
        for _ in 0..length {
            let action = walk.next_action(random, &used);
            used[action] = true;
            walk.push(action as u32);
        }
        walk.set_goal_of(walk.plan.len());
        Some(walk)
    }

    /// Of a walk of many lengths, the edges among them.
    pub fn of_any_length(random: &mut Random) -> Option<Self> {
        let most = rules::MAX_STEPS;
        let length = match random.index(8) {
            0 => random.pick(&[most - 1, most]),
            1 => random.size(0..=most),
            2 => 1,
            _ => random.size(2..=12),
        };
        Walk::random(random, length)
    }

    pub fn end(&self) -> &State {
        &self.states[self.plan.len()]
    }

    /// Every fact that holds in the end state.
    pub fn end_facts(&self) -> Vec<Fact> {
        let values = self.end()[..self.task.sizes.len()].iter().enumerate();
        let fact = |(variable, &value)| Fact { variable, value };
        values.map(fact).collect()
    }

    pub fn cost(&self) -> usize {
        self.plan.iter().map(|&action| self.task.cost(action)).sum()
    }

    pub fn push(&mut self, action: u32) {
        self.insert(self.plan.len(), &[action]);
    }

    /// Inserts steps that can be done at a place and, unless it is the end, lead back to its state.
    pub fn insert(&mut self, place: usize, steps: &[u32]) {
        let mut state = self.states[place];
        let reached = steps.iter().map(|&action| {
            set(&mut state, &self.task.actions[action as usize].effects);
            state
        });
        self.states.splice(place + 1..place + 1, reached);
        self.plan.splice(place..place, steps.iter().copied());
    }

    /// An action that was not used yet has its preconditions fitted to the state, so that they
    /// matter and still hold.
    fn next_action(&mut self, random: &mut Random, used: &[bool]) -> usize {
        let attempts = 4;
        let state = *self.end();
        let mut index = 0;
        for _ in 0..attempts {
            index = random.index(used.len());
            let action = &mut self.task.actions[index];
            if !used[index] {
                fit(&mut action.preconditions, &state);
            }
            if action.is_applicable(&state) {
                return index;
            }
        }
        // Without preconditions it is applicable here, and wherever it was before.
        self.task.actions[index].preconditions.clear();
        index
    }

    /// An action that is applicable in a state; the task has one for each state.
    pub fn random_applicable(&self, random: &mut Random, state: &State) -> u32 {
        let actions = 0..self.task.actions.len() as u32;
        let applicable: Vec<u32> = actions
            .filter(|&action| self.task.actions[action as usize].is_applicable(state))
            .collect();
        random.pick(&applicable)
    }

    /// Gives the goal's variables the values that they have before the step with this index.
    pub fn set_goal_of(&mut self, step: usize) {
        fit(&mut self.task.goal, &self.states[step]);
    }

    /// The index of a step, if there is one.
    pub fn random_step(&self, random: &mut Random) -> Option<usize> {
        (!self.plan.is_empty()).then(|| random_step(random, self.plan.len()))
    }

    /// Has the step with this index fail, either by one precondition alone or by another action in
    /// its place. At an action's first use no earlier step fails with it.
    pub fn spoil_step(&mut self, random: &mut Random, step: usize) -> Option<Refusal> {
        let is_first_use = !self.plan[..step].contains(&self.plan[step]);
        if is_first_use && !random.once_in(4) {
            let action = self.plan[step] as usize;
            let preconditions = &self.task.actions[action].preconditions;
            let (failing, fact) = self.other_fact(random, preconditions)?;
            self.task.actions[action].preconditions[failing] = fact;
        } else {
            self.plan[step] = self.failing_action(random, step)?;
        }
        Some(Cause::NotValid.at(step + 1))
    }

    fn failing_action(&self, random: &mut Random, step: usize) -> Option<u32> {
        let actions = &self.task.actions;
        let first = random.index(actions.len());
        let mut indices = (first..actions.len()).chain(0..first);
        let failing = indices.find(|&index| !actions[index].is_applicable(&self.states[step]));
        failing.map(|index| index as u32)
    }

    /// Has one goal fact alone ask for a value that the end state doesn't have.
    pub fn spoil_goal(&mut self, random: &mut Random) -> Option<Refusal> {
        let (unmet, fact) = self.other_fact(random, &self.task.goal)?;
        self.task.goal[unmet] = fact;
        Some(Cause::NotValid.at(self.plan.len() + 1))
    }

    /// Another value for one of the facts, with its index.
    fn other_fact(&self, random: &mut Random, facts: &[Fact]) -> Option<(usize, Fact)> {
        let index = random.index_in(facts)?;
        Some((index, self.task.other_value(random, facts[index])?))
    }

    /// Half of the time the goal is spoilt, otherwise a step.
    pub fn spoil(&mut self, random: &mut Random) -> Option<Refusal> {
        if random.once_in(2) {
            return self.spoil_goal(random);
        }
        let step = self.random_step(random)?;
        self.spoil_step(random, step)
    }

    /// Puts an action that the task doesn't have in the place of the step with this index.
    pub fn put_unknown_action(&mut self, random: &mut Random, step: usize) -> Option<Refusal> {
        self.plan[step] = unknown_action(random, &self.task);
        Some(Cause::UnknownAction.at(step + 1))
    }
}

/// The number of an action that the task doesn't have, at its edges too.
pub fn unknown_action(random: &mut Random, task: &Task) -> u32 {
    let actions = task.actions.len() as u32;
    let any = random.within(actions..=u32::MAX);
    random.pick(&[actions, actions + 1, any, u32::MAX])
}

/// The index of the first, the last or a middle step.
pub fn random_step(random: &mut Random, steps: usize) -> usize {
    match random.index(3) {
        0 => 0,
        1 => steps - 1,
        _ => random.index(steps),
    }
}
