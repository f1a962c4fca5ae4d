//! What a text can say and a sheet can't: refusals 14 and 15.

use super::listing::{any_number, any_pairs};
use super::{Change, Holds, Listing, Number, Operator, Pair, Variable};
use crate::makers::Random;
use crate::rules::{MAX_ACTIONS, MAX_ACTION_COST, MAX_DOMAIN, MAX_VARIABLES, MAX_WORDS};
use Facts::{Goal, New, Old, Prevail};

/// Puts what is unsupported, and answers with the line that is refused for it: what the line holds,
/// and how many before it hold the same. Nothing is put if there is no spot for it.
pub type PutUnsupported = fn(&mut Listing, &mut Random) -> Option<(Holds, usize)>;

pub const UNSUPPORTED: [(&str, PutUnsupported); 3] = [
    ("translator: axiom layer", |listing, random| {
        let variable = random.index_in(&listing.variables)?;
        listing.variables[variable].layer = Some(any_number(random));
        Some((Holds::Layer, variable))
    }),
    ("translator: axioms", |listing, random| {
        for _ in 0..random.size(1..=3) {
            listing.axioms.push(any_axiom(random));
        }
        Some((Holds::Axioms, 0))
    }),
    ("translator: condition on an effect", |listing, random| {
        let (operator, effect) = any_effect(random, listing)?;
        let conditions = any_pairs(random);
        (!conditions.is_empty()).then_some(())?;
        listing.operators[operator].effects[effect].conditions = conditions;
        let before = listing.operators[..operator].iter();
        let before: usize = before.map(|it| it.effects.len()).sum();
        Some((Holds::Effect, before + effect))
    }),
];

fn any_axiom(random: &mut Random) -> Change {
    let any = any_number(random);
    Change {
        conditions: any_pairs(random),
        variable: any_number(random),
        old: random.pick(&[None, Some(any)]),
        new: any_number(random),
    }
}

/// Puts what no sheet can hold, if there is a spot for it.
pub type PutUnfit = fn(&mut Listing, &mut Random) -> Option<()>;

pub const UNFIT: [(&str, PutUnfit); 18] = [
    ("translator: no variable", |listing, _| {
        listing.variables.clear();
        listing.goal.clear();
        for operator in &mut listing.operators {
            operator.prevail.clear();
            operator.effects.clear();
        }
        Some(())
    }),
    ("translator: over 64 variables", |listing, random| {
        let count = MAX_VARIABLES + random.size(1..=3);
        listing.variables.resize_with(count, || one_value(1));
        Some(())
    }),
    ("translator: range 0", |listing, _| {
        let has_room = listing.variables.len() < MAX_VARIABLES;
        has_room.then(|| listing.variables.push(one_value(0)))
    }),
    ("translator: range over 256", |listing, random| {
        let variable = random.index_in(&listing.variables)?;
        listing.variables[variable].range = MAX_DOMAIN + random.size(1..=8);
        Some(())
    }),
    ("translator: starting value", |listing, random| {
        let variable = random.index_in(&listing.variables)?;
        let variable = &mut listing.variables[variable];
        variable.start = unknown(random, variable.range, variable.start);
        Some(())
    }),
    ("translator: over 1,024 operators", |listing, random| {
        let count = MAX_ACTIONS + random.size(1..=2);
        listing.operators.resize_with(count, Operator::default);
        Some(())
    }),
    ("translator: cost", |listing, random| {
        let operator = random.index_in(&listing.operators)?;
        for operator in listing.operators.iter_mut().filter(|_| !listing.has_costs) {
            operator.cost = 0;
        }
        listing.has_costs = true;
        let cost = &mut listing.operators[operator].cost;
        *cost = unknown(random, MAX_ACTION_COST + 1, *cost);
        Some(())
    }),
    ("translator: unknown goal variable", |listing, random| {
        put_unknown(listing, random, Goal, VARIABLE)
    }),
    ("translator: unknown goal value", |listing, random| {
        put_unknown(listing, random, Goal, VALUE)
    }),
    ("translator: unknown prevail variable", |listing, random| {
        put_unknown(listing, random, Prevail, VARIABLE)
    }),
    ("translator: unknown prevail value", |listing, random| {
        put_unknown(listing, random, Prevail, VALUE)
    }),
    ("translator: unknown effect variable", |listing, random| {
        put_unknown(listing, random, New, VARIABLE)
    }),
    ("translator: unknown old value", |listing, random| {
        put_unknown(listing, random, Old, VALUE)
    }),
    ("translator: unknown new value", |listing, random| {
        put_unknown(listing, random, New, VALUE)
    }),
    ("translator: goal variable twice", |listing, random| {
        let (_, again) = again(listing, random, Goal)?;
        insert(random, &mut listing.goal, again);
        Some(())
    }),
    ("translator: prevail variable twice", |listing, random| {
        let ((operator, _), again) = again(listing, random, Prevail)?;
        insert(random, &mut listing.operators[operator].prevail, again);
        Some(())
    }),
    ("translator: prevail and old value", |listing, random| {
        let ((operator, _), again) = again(listing, random, Old)?;
        insert(random, &mut listing.operators[operator].prevail, again);
        Some(())
    }),
    ("translator: effect variable twice", |listing, random| {
        let ((operator, effect), again) = again(listing, random, New)?;
        let effects = &mut listing.operators[operator].effects;
        let old = random.pick(&[None, effects[effect].old]);
        insert(random, effects, Change::to(again, old));
        Some(())
    }),
];

/// The facts that a listing has: of the goal, prevail conditions, and of each effect the old value
/// and the new one.
#[derive(Clone, Copy)]
enum Facts {
    Goal,
    Prevail,
    Old,
    New,
}

/// The index of the operator, unless the fact is of the goal, and its index there.
type Place = (usize, usize);

/// Which number of a fact.
const VARIABLE: usize = 0;
const VALUE: usize = 1;

impl Listing {
    fn any_place(&self, random: &mut Random, facts: Facts) -> Option<Place> {
        match facts {
            Goal => Some((0, random.index_in(&self.goal)?)),
            Prevail => {
                let operator = random.index_in(&self.operators)?;
                Some((
                    operator,
                    random.index_in(&self.operators[operator].prevail)?,
                ))
            }
            Old | New => any_effect(random, self),
        }
    }

    /// Nothing where there is no old value.
    fn fact(&mut self, facts: Facts, (operator, fact): Place) -> Option<[&mut Number; 2]> {
        match facts {
            Goal => Some(self.goal[fact].each_mut()),
            Prevail => Some(self.operators[operator].prevail[fact].each_mut()),
            Old | New => {
                let effect = &mut self.operators[operator].effects[fact];
                let value = match facts {
                    Old => effect.old.as_mut()?,
                    _ => &mut effect.new,
                };
                Some([&mut effect.variable, value])
            }
        }
    }

    fn range_of(&self, variable: Number) -> usize {
        self.variables[variable as usize].range
    }
}

/// Gives one of these facts a variable or a value that there is not.
fn put_unknown(
    listing: &mut Listing,
    random: &mut Random,
    facts: Facts,
    which: usize,
) -> Option<()> {
    let place = listing.any_place(random, facts)?;
    let pair = listing.fact(facts, place)?.map(|it| *it);
    let limit = match which {
        VARIABLE => listing.variables.len(),
        _ => listing.range_of(pair[VARIABLE]),
    };
    *listing.fact(facts, place)?[which] = unknown(random, limit, pair[which]);
    Some(())
}

/// One of these facts with its place, or another of its variable: both count as the variable twice.
fn again(listing: &mut Listing, random: &mut Random, facts: Facts) -> Option<(Place, Pair)> {
    let place = listing.any_place(random, facts)?;
    let [variable, value] = listing.fact(facts, place)?.map(|it| *it);
    let any = random.index(listing.range_of(variable)) as Number;
    Some((place, [variable, random.pick(&[value, any])]))
}

fn one_value(range: usize) -> Variable {
    Variable {
        layer: None,
        range,
        start: 0,
    }
}

fn insert<T>(random: &mut Random, all: &mut Vec<T>, it: T) {
    all.insert(random.index(all.len() + 1), it);
}

/// The indices of an operator and of one of its effects.
fn any_effect(random: &mut Random, listing: &Listing) -> Option<Place> {
    let operator = random.index_in(&listing.operators)?;
    let effect = random.index_in(&listing.operators[operator].effects)?;
    Some((operator, effect))
}

/// A number that is not below the limit. In a byte or a word some of them would be as the old one,
/// and some values would read as a fact of a later variable.
fn unknown(random: &mut Random, limit: usize, old: Number) -> Number {
    let limit = limit as Number;
    let bits = random.pick(&[8, 16, 24, 32, 64]);
    let alike = old + (1 << bits);
    let any = any_number(random);
    let unknown = random.pick(&[limit, limit + 1, alike, any]);
    unknown.max(limit)
}

/// Adds effects to the last operator of a listing whose sheet is nearly full, if it has room for
/// them.
pub fn over_words(listing: &mut Listing, random: &mut Random) -> Option<()> {
    let count = MAX_WORDS + random.size(1..=2);
    let missing = count.checked_sub(listing.words())?;
    let variables = 0..listing.variables.len() as Number;
    let last = listing.operators.last_mut()?;
    let is_free = |it: &Number| last.effects.iter().all(|effect| effect.variable != *it);
    let free: Vec<Number> = variables.filter(is_free).take(missing).collect();
    let added = free.iter().map(|&variable| Change::to([variable, 0], None));
    last.effects.extend(added);
    (free.len() == missing).then_some(())
}
