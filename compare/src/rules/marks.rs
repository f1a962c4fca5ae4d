//! The marks, which the field calls landmarks, by the rule of document 02 itself: a step is marked by
//! an earlier and a later marked position, and whatever may mark one is looked at again until nothing
//! changes. Marks only come about from the start step and the end step, so steps that merely support
//! each other get none.

use super::{has, mask_of, split, Lodged, Mask, Refusal, MASK_WORDS, MAX_VARIABLES, WORD_BITS};
use std::mem::replace;

/// Refusals 1 to 9 and 11.
pub fn marks(words: &[u32], plan: &[u32]) -> Result<Mask, Refusal> {
    Ok(Lodged::check(words, plan, &[])?.marked())
}

impl Lodged<'_> {
    pub fn marked(&self) -> Mask {
        let positions = Positions::of(self);
        positions.mask(positions.least(&positions.links()))
    }
}

/// A value for each variable, where there is a fact of it.
type Facts = [Option<u32>; MAX_VARIABLES];

fn facts_of(facts: &[u32]) -> Facts {
    let mut values = [None; MAX_VARIABLES];
    for &fact in facts {
        let (variable, value) = split(fact);
        values[variable] = Some(value);
    }
    values
}

struct Position {
    needs: Facts,
    writes: Facts,
}

/// The start step, which writes all starting values, the steps of a plan, and the end step, which
/// needs the goal.
pub struct Positions(Vec<Position>);

/// One of a step's effect facts, by which it may be marked.
#[derive(Clone, Copy)]
pub struct Effect {
    pub step: usize,
    variable: usize,
    value: u32,
}

/// The step is marked when one of the earlier positions is and one of the later ones: each earlier
/// one writes another value of the effect's variable, each later one needs the effect, and between
/// any two of them no step but this one writes it.
#[derive(Clone, Copy)]
pub struct Link {
    pub step: usize,
    pub earlier: Set,
    pub later: Set,
}

impl Link {
    pub fn holds(&self, marked: &Set) -> bool {
        self.earlier.meets(marked) && self.later.meets(marked)
    }
}

impl Positions {
    pub fn of(lodged: &Lodged) -> Self {
        let nothing = [None; MAX_VARIABLES];
        let start = Position {
            needs: nothing,
            writes: lodged.task.start().map(Some),
        };
        let end = Position {
            needs: facts_of(lodged.task.goal()),
            writes: nothing,
        };
        let steps = lodged.actions.iter().map(|action| Position {
            needs: facts_of(action.preconditions),
            writes: facts_of(action.effects),
        });
        Positions([start].into_iter().chain(steps).chain([end]).collect())
    }

    pub fn start_and_end(&self) -> [usize; 2] {
        [0, self.0.len() - 1]
    }

    /// All that may mark a step.
    pub fn links(&self) -> Vec<Link> {
        self.links_by(|effect, position| self.writes(position, effect))
    }

    /// The same, where it is told which positions count as writers of an effect.
    pub fn links_by(&self, is_writer: impl Fn(Effect, usize) -> bool) -> Vec<Link> {
        let [start, end] = self.start_and_end();
        let effects = (start + 1..end).flat_map(|step| self.effects(step));
        let link = |effect| self.link(effect, |position| is_writer(effect, position));
        effects.map(link).collect()
    }

    fn effects(&self, step: usize) -> impl Iterator<Item = Effect> + '_ {
        let writes = self.0[step].writes.iter().enumerate();
        writes.filter_map(move |(variable, &value)| {
            value.map(|value| Effect {
                step,
                variable,
                value,
            })
        })
    }

    fn link(&self, effect: Effect, is_writer: impl Fn(usize) -> bool) -> Link {
        let step = effect.step;
        let earlier = up_to_first((0..step).rev(), &is_writer);
        let later = up_to_first(step + 1..self.0.len(), &is_writer);
        Link {
            step,
            earlier: Set::of(earlier.filter(|&i| self.writes_other(i, effect))),
            later: Set::of(later.filter(|&j| self.needs(j, effect))),
        }
    }

    pub fn writes(&self, position: usize, effect: Effect) -> bool {
        self.0[position].writes[effect.variable] == Some(effect.value)
    }

    fn writes_other(&self, position: usize, effect: Effect) -> bool {
        let written = self.0[position].writes[effect.variable];
        written.is_some_and(|value| value != effect.value)
    }

    fn needs(&self, position: usize, effect: Effect) -> bool {
        self.0[position].needs[effect.variable] == Some(effect.value)
    }

    /// The least set that has the start step, the end step and the step of each link that holds.
    pub fn least(&self, links: &[Link]) -> Set {
        let mut marked = Set::of(self.start_and_end());
        loop {
            let before = marked;
            for link in links {
                if link.holds(&marked) {
                    marked.put(link.step);
                }
            }
            if marked == before {
                return marked;
            }
        }
    }

    /// The steps in the set; step 1 is the lowest bit of a mask.
    pub fn mask(&self, set: Set) -> Mask {
        let [start, end] = self.start_and_end();
        let steps = (start + 1..end).filter(|&step| set.has(step));
        mask_of(steps.map(|step| step - 1))
    }
}

/// The positions that have no writer before them: those up to the first one, and that one too.
fn up_to_first(
    positions: impl Iterator<Item = usize>,
    is_writer: impl Fn(usize) -> bool,
) -> impl Iterator<Item = usize> {
    let mut is_behind = false;
    positions.take_while(move |&position| !replace(&mut is_behind, is_writer(position)))
}

/// A set of positions, one bit for each. A plan has no more than 257 of them.
#[derive(Clone, Copy, Default, PartialEq, Eq)]
pub struct Set([u64; MASK_WORDS + 1]);

impl Set {
    pub fn of(positions: impl IntoIterator<Item = usize>) -> Self {
        let mut set = Set::default();
        for position in positions {
            set.put(position);
        }
        set
    }

    pub fn put(&mut self, position: usize) {
        self.0[position / WORD_BITS] |= 1 << (position % WORD_BITS);
    }

    pub fn without(mut self, position: usize) -> Self {
        self.0[position / WORD_BITS] &= !(1 << (position % WORD_BITS));
        self
    }

    pub fn has(&self, position: usize) -> bool {
        has(&self.0, position)
    }

    fn meets(&self, other: &Self) -> bool {
        self.0.iter().zip(other.0).any(|(a, b)| a & b != 0)
    }
}
