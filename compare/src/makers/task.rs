//! Tasks of random shape, with every edge of their ranges, and the sheets that hold them.

use super::Random;
use crate::rules::{self, pair_word, State};
use std::ops::RangeInclusive;

#[derive(Clone, Copy)]
pub struct Fact {
    pub variable: usize,
    pub value: u32,
}

pub fn fact(variable: usize, value: usize) -> Fact {
    let value = value as u32;
    Fact { variable, value }
}

impl Fact {
    fn of(word: u32) -> Self {
        let (variable, value) = rules::split(word);
        Fact { variable, value }
    }

    pub fn word(self) -> u32 {
        (self.variable * rules::FACT_BASE) as u32 + self.value
    }

    pub fn holds(self, state: &State) -> bool {
        state[self.variable] == self.value
    }
}

/// Has the state hold these facts.
pub fn set(state: &mut State, facts: &[Fact]) {
    for fact in facts {
        state[fact.variable] = fact.value;
    }
}

/// Gives the facts' variables the values that they have in the state.
pub fn fit(facts: &mut [Fact], state: &State) {
    for fact in facts {
        fact.value = state[fact.variable];
    }
}

#[derive(Clone)]
pub struct Action {
    pub cost: u32,
    pub preconditions: Vec<Fact>,
    pub effects: Vec<Fact>,
}

pub fn action(cost: u32, preconditions: Vec<Fact>, effects: Vec<Fact>) -> Action {
    Action {
        cost,
        preconditions,
        effects,
    }
}

impl Action {
    pub fn is_applicable(&self, state: &State) -> bool {
        self.preconditions.iter().all(|fact| fact.holds(state))
    }

    fn part(&self) -> Vec<u32> {
        let head = [self.cost, self.preconditions.len() as u32];
        let facts = self.preconditions.iter().chain(&self.effects);
        head.into_iter().chain(facts.map(|f| f.word())).collect()
    }
}

#[derive(Clone)]
pub struct Task {
    pub sizes: Vec<u32>,
    pub start: Vec<u32>,
    pub goal: Vec<Fact>,
    pub actions: Vec<Action>,
}

impl Task {
    /// A task whose variables all start at 0.
    pub fn from_zero(sizes: Vec<u32>, goal: Vec<Fact>, actions: Vec<Action>) -> Self {
        Task {
            start: vec![0; sizes.len()],
            sizes,
            goal,
            actions,
        }
    }

    /// An accepted task of any shape.
    pub fn random(random: &mut Random) -> Self {
        let most = rules::MAX_VARIABLES;
        let variables = edged(random, 4, &[1, 2, most - 1, most], 1..=8);
        let most = rules::MAX_ACTIONS;
        // Few actions in most tasks: sheets with many take long and show little more.
        let actions = edged(random, 16, &[0, 1, most - 1, most], 0..=12);
        let many_facts = random.once_in(4);
        let group_size = |random: &mut Random| match random.index(8) {
            0 => 0,
            1 if many_facts => variables,
            2 if many_facts => random.size(0..=variables),
            _ => random.size(0..=variables.min(3)),
        };
        let sizes = random_domains(random, variables);
        Task::of_shape(random, sizes, actions, rules::MAX_WORDS, group_size)
    }

    /// A task that is quickly made and read.
    pub fn small(random: &mut Random) -> Self {
        let variables = random.size(1..=5);
        let sizes = small_domains(random, variables);
        let actions = random.size(0..=6);
        let group_size = |random: &mut Random| random.size(0..=variables);
        Task::of_shape(random, sizes, actions, rules::MAX_WORDS, group_size)
    }

    /// A task whose sheet has as many words as a sheet may have, or one or two fewer.
    pub fn filling(random: &mut Random) -> Self {
        Task::filling_with(random, random_domains)
    }

    /// The same with few values, so that most often it has room in a text.
    pub fn filling_briefly(random: &mut Random) -> Self {
        Task::filling_with(random, small_domains)
    }

    fn filling_with(random: &mut Random, domains: fn(&mut Random, usize) -> Vec<u32>) -> Self {
        let variables = rules::MAX_VARIABLES - random.index(2);
        let enough_actions = rules::MAX_WORDS / (2 * variables) + 1;
        let actions = random.size(enough_actions..=rules::MAX_ACTIONS);
        let limit = rules::MAX_WORDS - random.index(3);
        let sizes = domains(random, variables);
        Task::of_shape(random, sizes, actions, limit, |_| variables)
    }

    /// Takes facts for one group after another until the sheet has as many words as the limit says.
    fn of_shape(
        random: &mut Random,
        sizes: Vec<u32>,
        actions: usize,
        limit: usize,
        group_size: impl Fn(&mut Random) -> usize,
    ) -> Self {
        let start = sizes.iter().map(|&n| random_value(random, n)).collect();
        let pairs = rules::FIRST_ACTION_PAIR + actions;
        let values = 2 * sizes.len();
        let mut room = limit - pair_word(pairs) - values - rules::ACTION_HEAD * actions;
        let mut group = |random: &mut Random| {
            let size = group_size(random).min(room);
            room -= size;
            random_group(random, &sizes, size)
        };
        let goal = group(random);
        let actions =
            (0..actions).map(|_| action(random_cost(random), group(random), group(random)));
        Task {
            actions: actions.collect(),
            start,
            goal,
            sizes,
        }
    }

    /// The task of an accepted sheet.
    pub fn of_sheet(words: &[u32]) -> Option<Self> {
        let sheet = rules::check_sheet(words).ok()?;
        let facts = |words: &[u32]| words.iter().map(|&word| Fact::of(word)).collect();
        let actions = (0..sheet.actions()).map(|index| {
            let action_words = sheet.action(index);
            action(
                action_words.cost as u32,
                facts(action_words.preconditions),
                facts(action_words.effects),
            )
        });
        let sizes = sheet.sizes().to_vec();
        Some(Task {
            start: sheet.start()[..sizes.len()].to_vec(),
            goal: facts(sheet.goal()),
            actions: actions.collect(),
            sizes,
        })
    }

    /// Takes in another task, whose variables and actions come to stand behind its own. Answers
    /// with the number that the other's first action has then.
    pub fn take_in(&mut self, other: &Task) -> u32 {
        let first_variable = self.sizes.len();
        let first_action = self.actions.len() as u32;
        let moved = |facts: &[Fact]| -> Vec<Fact> {
            let moved = |fact: &Fact| Fact {
                variable: first_variable + fact.variable,
                ..*fact
            };
            facts.iter().map(moved).collect()
        };
        self.sizes.extend(&other.sizes);
        self.start.extend(&other.start);
        self.goal.extend(moved(&other.goal));
        for it in &other.actions {
            let [needs, sets] = [&it.preconditions, &it.effects].map(|facts| moved(facts));
            self.actions.push(action(it.cost, needs, sets));
        }
        first_action
    }

    pub fn start(&self) -> State {
        let mut state = [0; rules::MAX_VARIABLES];
        state[..self.start.len()].copy_from_slice(&self.start);
        state
    }

    /// The cost of a step of this action.
    pub fn cost(&self, action: u32) -> usize {
        self.actions[action as usize].cost as usize
    }

    /// Gives a fact another value of its variable's domain, if there is one.
    pub fn other_value(&self, random: &mut Random, fact: Fact) -> Option<Fact> {
        let size = self.sizes[fact.variable];
        (size > 1).then(|| {
            let value = (fact.value + random.within(1..=size - 1)) % size;
            Fact { value, ..fact }
        })
    }

    pub fn words(&self) -> Vec<u32> {
        let goal = self.goal.iter().map(|fact| fact.word()).collect();
        let mut parts = vec![self.sizes.clone(), self.start.clone(), goal];
        parts.extend(self.actions.iter().map(Action::part));
        let lengths: Vec<usize> = parts.iter().map(Vec::len).collect();
        rules::sheet_of(self.sizes.len(), &lengths, &parts.concat())
    }
}

/// Once in `times` one of the edges, once any number between the first and the last of them, and
/// otherwise a usual one.
fn edged(
    random: &mut Random,
    times: usize,
    edges: &[usize],
    usual: RangeInclusive<usize>,
) -> usize {
    match random.index(times) {
        0 => random.pick(edges),
        1 => random.size(edges[0]..=edges[edges.len() - 1]),
        _ => random.size(usual),
    }
}

fn random_domains(random: &mut Random, variables: usize) -> Vec<u32> {
    let most = rules::MAX_DOMAIN;
    let edges = [1, most - 1, most];
    let domain = |_| edged(random, 4, &edges, 1..=4) as u32;
    (0..variables).map(domain).collect()
}

fn small_domains(random: &mut Random, variables: usize) -> Vec<u32> {
    (0..variables).map(|_| random.within(1..=4)).collect()
}

fn random_cost(random: &mut Random) -> u32 {
    let most = rules::MAX_ACTION_COST;
    edged(random, 4, &[0, 1, most - 1, most], 0..=20) as u32
}

fn random_value(random: &mut Random, size: u32) -> u32 {
    match random.index(4) {
        0 => size - 1,
        _ => random.within(0..=size - 1),
    }
}

/// Facts of `size` different variables in rising order: each variable is taken with the chance that
/// leaves every choice of variables as likely as the others.
fn random_group(random: &mut Random, sizes: &[u32], size: usize) -> Vec<Fact> {
    let mut group = Vec::with_capacity(size);
    for (variable, &domain) in sizes.iter().enumerate() {
        let wanted = size - group.len();
        if wanted == 0 {
            break;
        }
        if random.index(sizes.len() - variable) < wanted {
            let value = random_value(random, domain);
            group.push(Fact { variable, value });
        }
    }
    group
}
