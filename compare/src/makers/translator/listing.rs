//! What a text says, apart from its names. Its numbers may be such as no sheet has.

use super::super::{Action, Fact, Random, Task};
use crate::rules::{pair_word, ACTION_HEAD, FIRST_ACTION_PAIR};

pub type Number = u128;

/// A variable and a value.
pub type Pair = [Number; 2];

pub struct Variable {
    /// Nothing is a layer of -1.
    pub layer: Option<Number>,
    pub range: usize,
    pub start: Number,
}

/// An effect, or an axiom.
pub struct Change {
    pub conditions: Vec<Pair>,
    pub variable: Number,
    /// Nothing is an old value of -1.
    pub old: Option<Number>,
    pub new: Number,
}

impl Change {
    /// Of a variable to a value, without conditions.
    pub fn to([variable, new]: Pair, old: Option<Number>) -> Self {
        Change {
            conditions: Vec::new(),
            variable,
            old,
            new,
        }
    }
}

#[derive(Default)]
pub struct Operator {
    pub prevail: Vec<Pair>,
    pub effects: Vec<Change>,
    pub cost: Number,
}

pub struct Listing {
    /// Whether the metric is 1.
    pub has_costs: bool,
    pub variables: Vec<Variable>,
    pub mutex_groups: Vec<Vec<Pair>>,
    pub goal: Vec<Pair>,
    pub operators: Vec<Operator>,
    pub axioms: Vec<Change>,
}

fn pair(fact: &Fact) -> Pair {
    [fact.variable as Number, Number::from(fact.value)]
}

fn pairs<'a>(facts: impl IntoIterator<Item = &'a Fact>) -> Vec<Pair> {
    facts.into_iter().map(pair).collect()
}

/// The fact of this variable in a group, whose variables rise.
fn with_variable(group: &[Fact], variable: usize) -> Option<&Fact> {
    let index = group.binary_search_by_key(&variable, |fact| fact.variable);
    index.ok().map(|index| &group[index])
}

impl Operator {
    /// A precondition is an old value where its variable is set, and a prevail condition otherwise.
    fn of(action: &Action) -> Self {
        let (preconditions, effects) = (&action.preconditions, &action.effects);
        let is_set = |fact: &&Fact| with_variable(effects, fact.variable).is_some();
        let effect = |effect: &Fact| {
            let old = with_variable(preconditions, effect.variable);
            Change::to(pair(effect), old.map(|fact| Number::from(fact.value)))
        };
        Operator {
            prevail: pairs(preconditions.iter().filter(|fact| !is_set(fact))),
            effects: effects.iter().map(effect).collect(),
            cost: Number::from(action.cost),
        }
    }

    fn words(&self) -> usize {
        let olds = self.effects.iter().filter(|it| it.old.is_some()).count();
        ACTION_HEAD + self.prevail.len() + olds + self.effects.len()
    }

    /// Has an old value stand as a prevail condition: both ask for the same.
    fn move_old_to_prevail(&mut self, effect: usize) {
        let effect = &mut self.effects[effect];
        let old = effect.old.take();
        self.prevail.extend(old.map(|old| [effect.variable, old]));
    }
}

impl Listing {
    /// The task as a translator would write it, with its costs and without mutex groups.
    pub fn of(task: &Task) -> Self {
        let values = task.sizes.iter().zip(&task.start);
        let variable = |(&size, &start): (&u32, &u32)| Variable {
            layer: None,
            range: size as usize,
            start: Number::from(start),
        };
        Listing {
            has_costs: true,
            variables: values.map(variable).collect(),
            mutex_groups: Vec::new(),
            goal: pairs(&task.goal),
            operators: task.actions.iter().map(Operator::of).collect(),
            axioms: Vec::new(),
        }
    }

    /// The task in any way that it can be written. Without costs, those of the task become 1.
    pub fn in_any_way(random: &mut Random, task: &mut Task) -> Self {
        let mut listing = Listing::of(task);
        let order = random.pick(&[Order::AsIs, Order::Falling, Order::Any]);
        let keeps_olds = random.once_in(2);
        order.put(random, &mut listing.goal);
        for operator in &mut listing.operators {
            for effect in 0..operator.effects.len() {
                if !keeps_olds && random.once_in(2) {
                    operator.move_old_to_prevail(effect);
                }
            }
            order.put(random, &mut operator.prevail);
            order.put(random, &mut operator.effects);
        }
        if random.once_in(2) {
            listing.drop_costs(random, task);
        }
        listing.mutex_groups = (0..random.index(4)).map(|_| any_pairs(random)).collect();
        listing
    }

    /// With metric 0 every operator costs 1, whatever its line says.
    fn drop_costs(&mut self, random: &mut Random, task: &mut Task) {
        self.has_costs = false;
        for (operator, action) in self.operators.iter_mut().zip(&mut task.actions) {
            operator.cost = any_number(random);
            action.cost = 1;
        }
    }

    /// The words that its sheet would have.
    pub fn words(&self) -> usize {
        let parts = FIRST_ACTION_PAIR + self.operators.len();
        let actions: usize = self.operators.iter().map(Operator::words).sum();
        pair_word(parts) + 2 * self.variables.len() + self.goal.len() + actions
    }
}

/// How the facts of a group stand.
#[derive(Clone, Copy)]
enum Order {
    AsIs,
    Falling,
    Any,
}

impl Order {
    fn put<T>(self, random: &mut Random, facts: &mut [T]) {
        match self {
            Order::AsIs => (),
            Order::Falling => facts.reverse(),
            Order::Any => random.shuffle(facts),
        }
    }
}

/// Numbers at which a limit or a word of a machine would show a slip.
const EDGES: [Number; 10] = [
    0,
    1,
    64,
    256,
    1_000_000,
    1_000_001,
    1 << 31,
    1 << 32,
    1 << 64,
    Number::MAX,
];

pub fn any_number(random: &mut Random) -> Number {
    let any = Number::from(random.word());
    let edge = random.pick(&EDGES);
    random.pick(&[any, edge, edge.saturating_sub(1), edge.saturating_add(any)])
}

/// Pairs of any numbers, or none.
pub fn any_pairs(random: &mut Random) -> Vec<Pair> {
    let count = random.index(4);
    let pairs = (0..count).map(|_| [(); 2].map(|_| any_number(random)));
    pairs.collect()
}
