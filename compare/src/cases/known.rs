//! The cases of a list, with the answer that is due where it is known by the way that the list was
//! made.

use super::{Answer, Case, Memory, Service};
use crate::makers::{List, Walk};
use crate::rules::{mask_of, Cause, Claim, Kept, Licensed, Moves, Values};
use crate::rules::{MAX_UNMARKED, WORD_BITS};

impl List {
    /// The lengths are those that the service needs.
    pub fn fitting(&self, service: Service) -> Case {
        let outputs = [self.plan.len(); 2];
        let case = Case::fitting(service, &self.task.words(), &self.plan, outputs);
        self.with_due(case)
    }

    pub fn with_due(&self, case: Case) -> Case {
        match self.due(case.call.service, &case.lent) {
            Some(answer) => case.due(answer),
            None => case,
        }
    }

    fn due(&self, service: Service, lent: &Memory) -> Option<Answer> {
        let known = &self.known;
        let kept = |steps: &Option<Vec<usize>>| steps.as_ref().map(|steps| self.keeping(steps));
        match (service, known.unmarked) {
            (Service::CheckPlan, Some(_)) => {
                let walk = Walk::of(self.task.clone(), &self.plan);
                Some(walk.answer())
            }
            (Service::Course, Some(_)) => {
                let walk = Walk::of(self.task.clone(), &self.plan);
                Some(walk.passing(walk.states.len()))
            }
            (Service::Moves, Some(_)) => Some(self.moving(lent)),
            (Service::Marks, _) => {
                let marked = known.marked.as_ref()?;
                Some(Answer::marking(mask_of(marked.iter().copied())))
            }
            (Service::Eliminate, _) => kept(&known.eliminated).map(Answer::keeping),
            (Service::Greedy, _) => kept(&known.greedy).map(Answer::keeping),
            (Service::Cheaper, _) => {
                let both = [kept(&known.eliminated)?, kept(&known.greedy)?];
                Some(Answer::keeping_both(both))
            }
            (Service::CheaperLeft, _) => {
                let cheaper = self.cheaper()?;
                Some(Answer::keeping(self.keeping(cheaper)))
            }
            (Service::Exact, Some(many)) if many > MAX_UNMARKED => {
                Some(Answer::refused(service, Cause::Unmarked.at(many)))
            }
            (Service::Exact, _) => kept(&known.exact).map(Answer::keeping),
            (Service::License, _) => self.licensed().map(Answer::licensed),
            _ => None,
        }
    }

    /// The moves, with tallies that run along: of all, of those kept and of those struck.
    fn moving(&self, lent: &Memory) -> Answer {
        let bit = |mask: &[u64], step: usize| {
            let word = mask.get(step / WORD_BITS).copied().unwrap_or(0);
            (word >> (step % WORD_BITS)) as u32 & 1
        };
        let (mut tallies, mut rows) = ([0; 6], Vec::new());
        for (step, &action) in self.plan.iter().enumerate() {
            let (cost, kept) = (self.task.cost(action) as u32, bit(&lent.kept, step));
            for at in [0, if kept == 1 { 2 } else { 4 }] {
                tallies[at] += cost;
                tallies[at + 1] += 1;
            }
            let [a, b, c, d, e, f] = tallies;
            rows.push([cost, kept, bit(&lent.marked, step), a, b, c, d, e, f]);
        }
        let [.., cost, steps] = tallies.map(|it| it as usize);
        let saved = [cost, steps];
        Answer::moving(Moves { rows, saved })
    }

    fn keeping(&self, steps: &[usize]) -> Kept {
        Kept::of(&self.plan, steps, |step| self.task.cost(self.plan[step]))
    }

    fn licensed(&self) -> Option<Licensed> {
        let known = &self.known;
        let (claim, kept) = if known.unmarked? <= MAX_UNMARKED {
            (Claim::Least, self.keeping(known.exact.as_ref()?))
        } else {
            let mut left = self.cheaper()?.clone();
            match known.unmarked_left {
                open if open > MAX_UNMARKED => (Claim::Open(open), self.keeping(&left)),
                _ => {
                    left.retain(|step| !known.idle.contains(step));
                    (Claim::Irreducible, self.keeping(&left))
                }
            }
        };
        Some(Licensed { claim, kept })
    }

    /// What the cheaper elimination keeps.
    fn cheaper(&self) -> Option<&Vec<usize>> {
        let (eliminated, greedy) = (self.known.eliminated.as_ref()?, self.known.greedy.as_ref()?);
        let is_greedy = self.keeping(greedy).tally() < self.keeping(eliminated).tally();
        Some(if is_greedy { greedy } else { eliminated })
    }
}

impl Walk {
    /// Of the check of a plan whose goal holds at the end.
    pub fn answer(&self) -> Answer {
        Answer::valid(self.cost(), self.plan.len(), self.end())
    }

    /// Of the states along a plan, where so many are passed.
    pub fn passing(&self, count: usize) -> Answer {
        let variables = self.task.sizes.len();
        let states = self.states[..count].iter();
        let states: Vec<Values> = states.map(|state| state[..variables].to_vec()).collect();
        Answer::passing(&states)
    }
}
