//! The marks by passes like the library's, so that the two can be timed against each other: a walk
//! from the first step to the last finds the supporter of each fact that is written, and a walk back
//! marks the supporters of what the marked steps need. A chain of needs takes one pass, however long
//! it is; a chain of earlier steps takes one for each link.
//!
//! Which step has written a fact last is the same in each pass, and is looked up once.

use super::{mask_of, split, Lodged, Mask, Refusal, State, FACT_BASE, MAX_STEPS, MAX_VARIABLES};
use std::mem::replace;

/// Refusals 1 to 9 and 11.
pub fn marks(words: &[u32], plan: &[u32]) -> Result<Mask, Refusal> {
    let (marked, _) = Lodged::check(words, plan, &[])?.marked_by_passes();
    Ok(marked)
}

impl Lodged<'_> {
    /// The marks, and how many passes have marked something: one more finds nothing.
    pub fn marked_by_passes(&self) -> (Mask, usize) {
        repeated(self, |needs, supporters, marked| {
            let mut next = *marked;
            for (position, needed) in needs.by_position().rev() {
                if next[position] {
                    mark(needed, supporters, &mut next);
                }
            }
            next
        })
    }

    /// The same round by round: a round marks the steps that the rule marks by the steps of earlier
    /// rounds alone. It tells how many rounds a plan has, and what they cost one by one.
    pub fn marked_by_rounds(&self) -> (Mask, usize) {
        repeated(self, |needs, supporters, marked| {
            let mut next = *marked;
            for (position, needed) in needs.by_position() {
                if marked[position] {
                    mark(needed, supporters, &mut next);
                }
            }
            next
        })
    }
}

/// By the position, the end step's too.
type Marked = [bool; MAX_STEPS + 2];

/// The position of the start step.
const START: u8 = 0;

/// Finds supporters and has them marked by needs until nothing changes. Answers with the marks, and
/// with how often something was marked.
fn repeated(
    lodged: &Lodged,
    mark_by_needs: impl Fn(&Needs, &[u8], &Marked) -> Marked,
) -> (Mask, usize) {
    let (needs, writes) = needs_and_writes(lodged);
    let mut supporters = vec![START; 1 + writes.len()];
    let steps = lodged.actions.len();
    let mut marked = [false; MAX_STEPS + 2];
    marked[usize::from(START)] = true;
    marked[steps + 1] = true;
    let mut times = 0;
    loop {
        find_supporters(lodged.task.start(), &writes, &marked, &mut supporters[1..]);
        let next = mark_by_needs(&needs, &supporters, &marked);
        if next == marked {
            return (mask_of((0..steps).filter(|step| marked[step + 1])), times);
        }
        marked = next;
        times += 1;
    }
}

/// A fact that a step writes.
struct Write {
    variable: u8,
    value: u8,
    /// The step.
    at: u8,
    /// The step that writes the fact last before it, or the start step.
    before: u8,
}

/// For each fact that a step or the goal needs, the number of the write that it rests on: from 1, in
/// the order of the steps, and 0 for a fact that holds from the start on.
struct Needs {
    writes: Vec<u16>,
    /// The needs of a step, and at last of the end step, begin at its bound and end at the next one.
    bounds: Vec<u16>,
}

impl Needs {
    fn none() -> Self {
        Needs {
            writes: Vec::new(),
            bounds: vec![0],
        }
    }

    fn put(&mut self, facts: &[u32], last: &[Last]) {
        let numbers = facts.iter().map(|&fact| last[fact as usize].0);
        self.writes.extend(numbers);
        self.bounds.push(self.writes.len() as u16);
    }

    /// The positions in their order, each with the writes that its needs rest on.
    fn by_position(&self) -> impl DoubleEndedIterator<Item = (usize, &[u16])> {
        let steps = self.bounds.windows(2).enumerate();
        steps.map(|(step, bounds)| {
            let [begin, end] = [bounds[0], bounds[1]].map(usize::from);
            (step + 1, &self.writes[begin..end])
        })
    }
}

/// The number of the last write of a fact, and its step. Nobody has written it where both are zero.
type Last = (u16, u8);

fn needs_and_writes(lodged: &Lodged) -> (Needs, Vec<Write>) {
    let mut needs = Needs::none();
    let mut writes = Vec::new();
    let mut last: Vec<Last> = vec![(0, START); lodged.task.sizes().len() * FACT_BASE];
    for (action, at) in lodged.actions.iter().zip(1..) {
        needs.put(action.preconditions, &last);
        let numbers = writes.len() as u16 + 1..;
        writes.extend(action.effects.iter().zip(numbers).map(|(&fact, number)| {
            let (variable, value) = split(fact);
            let (_, before) = replace(&mut last[fact as usize], (number, at));
            Write {
                variable: variable as u8,
                value: value as u8,
                at,
                before,
            }
        }));
    }
    needs.put(lodged.task.goal(), &last);
    (needs, writes)
}

/// The last marked writers of a variable. Positions are told with 1 added, and 0 is none.
#[derive(Clone, Copy)]
struct Writers {
    /// What the last one writes, and where it stands.
    value: u8,
    last: u16,
    /// Where the last one of another value stands.
    other: u16,
}

/// Finds the supporter of those who need a write, for each write: its own step if that is not marked
/// yet and a marked one writes another value behind the write before. At first it is the start step,
/// which needs no mark; once found it stays, since marks do.
fn find_supporters(start: State, writes: &[Write], marked: &Marked, supporters: &mut [u8]) {
    let mut writers = start.map(|value| Writers {
        value: value as u8,
        last: u16::from(START) + 1,
        other: 0,
    });
    for (write, supporter) in writes.iter().zip(supporters) {
        let writers = &mut writers[usize::from(write.variable) % MAX_VARIABLES];
        let is_other = writers.value != write.value;
        let other = if is_other {
            writers.last
        } else {
            writers.other
        };
        if marked[usize::from(write.at)] {
            *writers = Writers {
                value: write.value,
                last: u16::from(write.at) + 1,
                other,
            };
        } else if other > u16::from(write.before) {
            *supporter = write.at;
        }
    }
}

/// Marks the supporters of these needs.
fn mark(needed: &[u16], supporters: &[u8], marked: &mut Marked) {
    for &write in needed {
        marked[usize::from(supporters[usize::from(write)])] = true;
    }
}
