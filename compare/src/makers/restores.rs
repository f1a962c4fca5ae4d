//! Plans of restores, whose marks come about one after the other by the earlier step.

use super::answered::COSTS;
use super::parts::{chain, laid_into_each_other};
use super::{action, fact, Action, Fact, List, Random, Task};
use crate::rules::{MAX_STEPS, MAX_VARIABLES};

/// Restores and needed steps take turns. Each restore sets what the needed step behind it or the goal
/// asks for and spoils what the next restore sets: so it is marked by the one that asks and by the
/// restore before it, and the first one by the start, where what it sets is spoilt. The last marked
/// one spoils nothing, or nothing is spoilt at the start: those behind it have nothing to restore.
pub struct Restores {
    /// The restores, with a needed step behind each.
    pub links: usize,
    /// The restores that are marked.
    pub marked: usize,
    pub asker: Asker,
    /// The lamps between all these steps.
    pub lamps: usize,
}

/// Who asks for what the restores set.
#[derive(Clone, Copy)]
pub enum Asker {
    /// The needed step behind each of them. So many variables are restored in turns, two or more.
    NextStep(usize),
    /// The goal. Each restore has a variable of its own; there is one or more.
    Goal,
}

/// The restores that a plan has room for, each with a needed step.
pub const MOST_LINKS: usize = MAX_STEPS / 2;
/// Those that the goal can ask for: one more is spoilt, and the counter and the lamp are variables
/// too.
pub const MOST_FOR_GOAL: usize = MAX_VARIABLES - 3;

/// The variables: what counts the needed steps, then those that are restored, then the lamp.
const COUNTER: usize = 0;
const FIRST: usize = 1;

impl Restores {
    pub fn make(&self, random: &mut Random) -> List {
        let actions = self.actions(random);
        let lamps = vec![actions.len() as u32 - 1; self.lamps];
        let (plan, places) = laid_into_each_other(random, &[self.lane(), lamps]);
        let kept: Vec<usize> = self.kept().map(|index| places[0][index]).collect();
        let lamp = FIRST + self.width();
        let mut sizes = vec![2; lamp + 1];
        sizes[COUNTER] = self.links as u32 + 1;
        let mut task = Task::from_zero(sizes, self.goal(), actions);
        task.start[FIRST..lamp].fill(1);
        if self.marked > 0 {
            task.start[self.fact(1, 1).variable] = 0;
        }
        List::alike(task, plan, kept.clone(), kept)
    }

    /// How many variables are restored or spoilt.
    fn width(&self) -> usize {
        match self.asker {
            Asker::NextStep(width) => width,
            Asker::Goal => self.links + 1,
        }
    }

    fn goal(&self) -> Vec<Fact> {
        let asked = match self.asker {
            Asker::NextStep(_) => 0,
            Asker::Goal => self.links,
        };
        let asked = (1..=asked).map(|number| self.fact(number, 1));
        let counted = fact(COUNTER, self.links);
        [counted].into_iter().chain(asked).collect()
    }

    /// What the restore of this number sets where the value is 1; where it is 0, what is spoilt.
    /// Numbers are from 1.
    fn fact(&self, number: usize, value: usize) -> Fact {
        fact(FIRST + number % self.width(), value)
    }

    /// The needed steps, the restores, those that spoil nothing, and the lamp.
    fn actions(&self, random: &mut Random) -> Vec<Action> {
        let mut cost = || random.pick(&COSTS);
        let mut actions = chain(COUNTER, self.links, &mut cost);
        if let Asker::NextStep(_) = self.asker {
            for (needed, number) in actions.iter_mut().zip(1..) {
                needed.preconditions.push(self.fact(number, 1));
            }
        }
        for spoils in [true, false] {
            for number in 0..self.width() {
                let spoilt = spoils.then(|| self.fact(number + 1, 0));
                let set = self.fact(number, 1);
                let mut effects: Vec<Fact> = [set].into_iter().chain(spoilt).collect();
                effects.sort_by_key(|fact| fact.variable);
                actions.push(action(cost(), vec![], effects));
            }
        }
        let lit = fact(FIRST + self.width(), 1);
        actions.push(action(cost(), vec![], vec![lit]));
        actions
    }

    /// The actions of the steps beside the lamps.
    fn lane(&self) -> Vec<u32> {
        let of_link = |number: usize| {
            let spoils = number != self.marked;
            let first = self.links + if spoils { 0 } else { self.width() };
            [first + number % self.width(), number - 1].map(|action| action as u32)
        };
        (1..=self.links).flat_map(of_link).collect()
    }

    /// The indices of the kept steps in the lane: the marked restores and every needed step.
    fn kept(&self) -> impl Iterator<Item = usize> + '_ {
        (0..2 * self.links).filter(|index| index % 2 == 1 || index / 2 < self.marked)
    }
}
