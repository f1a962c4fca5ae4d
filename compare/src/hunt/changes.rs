//! What the hunt does with a list, which may be valid or not: changes of costs, facts, steps and
//! variables, and how far it is.

use crate::makers::families::{Placement, PLACEMENTS};
use crate::makers::{chain, fact, fit, Action, Fact, Known, List, Random, Walk};
use crate::rules::{search, State, MAX_ACTIONS, MAX_ACTION_COST};
use crate::rules::{MAX_DOMAIN, MAX_STEPS, MAX_VARIABLES, MAX_WORDS};

/// Makes one change at the step with this index, or elsewhere, or none where the list has no spot
/// for it.
type Change = fn(&mut Random, &mut List, usize) -> Option<()>;

const CHANGES: [Change; 14] = [
    change_cost,
    change_cost,
    add_precondition,
    |random, list, step| drop_one(random, &mut list.action_of(step).preconditions),
    need_everything,
    add_effect,
    |random, list, step| drop_one(random, &mut list.action_of(step).effects),
    set_everything,
    change_goal,
    move_step,
    |_, list, step| {
        list.plan.remove(step);
        Some(())
    },
    add_step,
    add_variable,
    add_value,
];
const MOST_CHANGES: usize = 3;

/// Makes some changes, and half of the time fits what is asked for to them. What was known of the
/// list is known no more.
pub fn change(random: &mut Random, list: &mut List) {
    list.known = Known::default();
    for _ in 0..random.size(1..=MOST_CHANGES) {
        if let Some(step) = random.index_in(&list.plan) {
            random.pick(&CHANGES)(random, list, step);
        }
    }
    if random.once_in(2) {
        list.fit();
    }
}

/// Has the group hold the fact, in its variable's place.
fn put(group: &mut Vec<Fact>, fact: Fact) {
    match group.binary_search_by_key(&fact.variable, |fact| fact.variable) {
        Ok(index) => group[index] = fact,
        Err(index) => group.insert(index, fact),
    }
}

fn drop_one(random: &mut Random, group: &mut Vec<Fact>) -> Option<()> {
    group.remove(random.index_in(group)?);
    Some(())
}

fn change_cost(random: &mut Random, list: &mut List, step: usize) -> Option<()> {
    let most = MAX_ACTION_COST as u32;
    let any = random.within(0..=most);
    let cost = &mut list.action_of(step).cost;
    let (half, double) = (*cost / 2, (2 * *cost).min(most));
    *cost = random.pick(&[0, 1, half, double, any, most]);
    Some(())
}

fn add_precondition(random: &mut Random, list: &mut List, step: usize) -> Option<()> {
    let variable = random.index(list.task.sizes.len());
    let value = list.walk().states[step][variable];
    let fact = Fact { variable, value };
    put(&mut list.action_of(step).preconditions, fact);
    Some(())
}

fn whole(walk: &Walk, state: &State) -> Vec<Fact> {
    let values = state[..walk.task.sizes.len()].iter().enumerate();
    let fact = |(variable, &value)| Fact { variable, value };
    values.map(fact).collect()
}

/// Has an action need the whole state that it is done in.
fn need_everything(_: &mut Random, list: &mut List, step: usize) -> Option<()> {
    let walk = list.walk();
    list.action_of(step).preconditions = whole(&walk, &walk.states[step]);
    Some(())
}

fn add_effect(random: &mut Random, list: &mut List, step: usize) -> Option<()> {
    let variable = random.index(list.task.sizes.len());
    let value = random.within(0..=list.task.sizes[variable] - 1);
    put(&mut list.action_of(step).effects, Fact { variable, value });
    Some(())
}

/// Has an action set the whole state that it leads to, which changes no state of the plan.
fn set_everything(_: &mut Random, list: &mut List, step: usize) -> Option<()> {
    let walk = list.walk();
    list.action_of(step).effects = whole(&walk, &walk.states[step + 1]);
    Some(())
}

/// Asks for one fact of the end state more, or for one less.
fn change_goal(random: &mut Random, list: &mut List, _: usize) -> Option<()> {
    if random.once_in(2) {
        return drop_one(random, &mut list.task.goal);
    }
    let facts = list.walk().end_facts();
    put(&mut list.task.goal, random.pick(&facts));
    Some(())
}

fn move_step(random: &mut Random, list: &mut List, step: usize) -> Option<()> {
    let moved = list.plan.remove(step);
    let to = random.index(list.plan.len() + 1);
    list.plan.insert(to, moved);
    Some(())
}

/// A step of a copy of some action.
fn add_step(random: &mut Random, list: &mut List, step: usize) -> Option<()> {
    (list.plan.len() < MAX_STEPS).then_some(())?;
    let copied = list.action_of(step).clone();
    let place = random.index(list.plan.len() + 1);
    list.plan.insert(place, list.task.actions.len() as u32);
    list.task.actions.push(copied);
    Some(())
}

fn add_variable(random: &mut Random, list: &mut List, _: usize) -> Option<()> {
    (list.task.sizes.len() < MAX_VARIABLES).then_some(())?;
    list.task.sizes.push(2);
    list.task.start.push(random.within(0..=1));
    Some(())
}

fn add_value(random: &mut Random, list: &mut List, _: usize) -> Option<()> {
    let variable = random.index(list.task.sizes.len());
    let size = &mut list.task.sizes[variable];
    *size = (*size + 1).min(MAX_DOMAIN as u32);
    Some(())
}

impl List {
    /// The turns that the search takes. Nothing where the exact reduction refuses the list.
    pub fn turns(&self) -> Option<u64> {
        let words = self.task.words();
        let has_room = words.len() <= MAX_WORDS && self.task.sizes.len() <= MAX_VARIABLES;
        let turns = has_room.then(|| search::turns(&words, &self.plan).ok());
        turns.flatten()
    }

    /// The action of the step with this index.
    pub fn action_of(&mut self, step: usize) -> &mut Action {
        &mut self.task.actions[self.plan[step] as usize]
    }

    pub fn walk(&self) -> Walk {
        Walk::of(self.task.clone(), &self.plan)
    }

    /// Has the preconditions of each action at its first step, and the goal, ask for what holds
    /// there, so that more changes leave the list valid.
    pub fn fit(&mut self) {
        let walk = self.walk();
        let mut is_used = vec![false; self.task.actions.len()];
        for (step, &action) in self.plan.iter().enumerate() {
            let action = action as usize;
            if !std::mem::replace(&mut is_used[action], true) {
                fit(
                    &mut self.task.actions[action].preconditions,
                    &walk.states[step],
                );
            }
        }
        fit(&mut self.task.goal, walk.end());
    }

    /// The list as it is, and at full length by a chain of marked steps at each placement, if there
    /// is room for them.
    pub fn with_lengths(&self, random: &mut Random) -> Vec<List> {
        let longer = PLACEMENTS.map(|placement| self.lengthened(random, placement));
        let own = Some(self.clone());
        [own].into_iter().chain(longer).flatten().collect()
    }

    /// The placement is that of the list's own steps to the chain.
    fn lengthened(&self, random: &mut Random, placement: Placement) -> Option<List> {
        let List { mut task, plan, .. } = self.clone();
        let (own, counter, first) = (plan.len(), task.sizes.len(), task.actions.len());
        let length = MAX_STEPS - own;
        if counter == MAX_VARIABLES || first + length > MAX_ACTIONS {
            return None;
        }
        task.sizes.push(length as u32 + 1);
        task.start.push(0);
        task.goal.push(fact(counter, length));
        task.actions.extend(chain(counter, length, || 1));
        let is_own = placement.turns(random, own, MAX_STEPS);
        let (mut own, mut chain) = (plan.into_iter(), first as u32..);
        let next = |is_own| if is_own { own.next() } else { chain.next() };
        let plan = is_own.into_iter().filter_map(next).collect();
        let list = List::of(task, plan);
        list.turns().is_some().then_some(list)
    }
}
