//! Marks with one fault each.

use super::{fault, Fault};
use crate::cases::{Answer, Memory, Service};
use crate::rules::marks::{Link, Positions, Set};
use crate::rules::Lodged;

pub fn faults() -> Vec<Fault> {
    let mut faults = Vec::new();
    faults.extend(SETS.map(|(name, marked)| fault(name, move |lent| marking(lent, marked))));
    faults.extend(LINKS.map(|(name, change)| {
        fault(name, move |lent| {
            marking(lent, |_, positions| changed(positions, change))
        })
    }));
    faults
}

/// Other positions are marked.
const SETS: [(&str, fn(&Lodged, &Positions) -> Set); 5] = [
    ("marks nothing", |_, it| Set::of(it.start_and_end())),
    ("marks mutual support", |_, it| greatest(it)),
    ("overlooks writers between", |_, it| {
        it.least(&it.links_by(|_, _| false))
    }),
    ("takes an action for a step", by_actions),
    ("looks at every step once", |_, it| once(it)),
];

/// Changes a link; the positions are those of the start and the end.
type Change = fn(&mut Link, [usize; 2]);

/// Positions are marked by other links.
const LINKS: [(&str, Change); 4] = [
    ("takes unmarked earlier steps", |link, [start, _]| {
        link.earlier = any_of(link.earlier, start)
    }),
    ("takes unmarked later steps", |link, [_, end]| {
        link.later = any_of(link.later, end)
    }),
    ("forgets the start step", |link, [start, _]| {
        link.earlier = link.earlier.without(start)
    }),
    ("goes by the older rule", |link, [start, _]| {
        link.earlier = only(link.earlier, start)
    }),
];

/// The right checks, but these positions are marked.
fn marking(lent: &Memory, marked: impl Fn(&Lodged, &Positions) -> Set) -> Answer {
    let lodged = Lodged::check(&lent.words, &lent.plan, &[]);
    let answer = lodged.map(|lodged| {
        let positions = Positions::of(&lodged);
        Answer::marking(positions.mask(marked(&lodged, &positions)))
    });
    Answer::of(Service::Marks, answer)
}

/// The greatest set in which each step is marked by others: it is begun with all of them.
fn greatest(positions: &Positions) -> Set {
    let links = positions.links();
    let [start, end] = positions.start_and_end();
    let mut marked = Set::of(start..=end);
    loop {
        let holding = links.iter().filter(|link| link.holds(&marked));
        let steps = holding.map(|link| link.step);
        let next = Set::of(steps.chain([start, end]));
        if next == marked {
            return marked;
        }
        marked = next;
    }
}

/// By links of which each is changed.
fn changed(positions: &Positions, change: Change) -> Set {
    let mut links = positions.links();
    for link in &mut links {
        change(link, positions.start_and_end());
    }
    positions.least(&links)
}

/// The set, with a position that is always marked if there is any in it.
fn any_of(set: Set, always_marked: usize) -> Set {
    match set == Set::default() {
        true => set,
        false => Set::of([always_marked]),
    }
}

fn only(set: Set, position: usize) -> Set {
    Set::of(set.has(position).then_some(position))
}

/// Another step of the same action is not another writer.
fn by_actions(lodged: &Lodged, positions: &Positions) -> Set {
    let action = |step: usize| lodged.plan.get(step.wrapping_sub(1));
    let links = positions.links_by(|effect, position| {
        positions.writes(position, effect) && action(position) != action(effect.step)
    });
    positions.least(&links)
}

fn once(positions: &Positions) -> Set {
    let mut marked = Set::of(positions.start_and_end());
    for link in positions.links() {
        if link.holds(&marked) {
            marked.put(link.step);
        }
    }
    marked
}
