//! Elimination, which the field calls action elimination, greedy elimination and the cheaper of their
//! results. Both go through the current list from the state before each step, so that a trial walks
//! only what stands behind it.

use super::{all_hold, do_step, do_step_if, Kept, Lodged, Refusal, State, Tally, Test};

/// Refusals 1 to 11.
pub fn eliminate(words: &[u32], plan: &[u32], output: usize) -> Result<Kept, Refusal> {
    Ok(Lodged::check(words, plan, &[output])?.kept(Lodged::eliminated))
}

/// Refusals 1 to 11.
pub fn greedy(words: &[u32], plan: &[u32], output: usize) -> Result<Kept, Refusal> {
    Ok(Lodged::check(words, plan, &[output])?.kept(Lodged::greedily_eliminated))
}

/// What elimination keeps, then what greedy elimination keeps. Refusals 1 to 11; 10 if either
/// output is short.
pub fn cheaper(words: &[u32], plan: &[u32], outputs: [usize; 2]) -> Result<[Kept; 2], Refusal> {
    let lodged = Lodged::check(words, plan, &outputs)?;
    Ok([Lodged::eliminated, Lodged::greedily_eliminated].map(|way| lodged.kept(way)))
}

/// What the cheaper of both keeps. Refusals 1 to 11.
pub fn cheaper_left(words: &[u32], plan: &[u32], output: usize) -> Result<Kept, Refusal> {
    Ok(Lodged::check(words, plan, &[output])?.kept(Lodged::cheaper_eliminated))
}

/// Which output is the cheaper one, as an index, and its kept part; ties are the first one's.
pub fn kept_part(outputs: [&[u32]; 2], tallies: [Tally; 2]) -> (usize, &[u32]) {
    let chosen = usize::from(tallies[1] < tallies[0]);
    let (output, steps) = (outputs[chosen], tallies[chosen].steps as usize);
    (chosen, &output[..steps.min(output.len())])
}

/// A trial that succeeds: what it strikes, ordered as greedy elimination chooses, and the steps
/// behind its own that it keeps.
struct Success {
    cost: usize,
    steps: usize,
    kept: Vec<usize>,
}

impl Lodged<'_> {
    /// What the cheaper of both keeps: the lower cost, then fewer steps, then elimination's.
    pub fn cheaper_eliminated(&self) -> Vec<usize> {
        let [eliminated, greedy] = [self.eliminated(), self.greedily_eliminated()];
        match self.tally(&greedy) < self.tally(&eliminated) {
            true => greedy,
            false => eliminated,
        }
    }

    /// The cost of these steps and their number, in the order that they are compared in.
    pub fn tally(&self, steps: &[usize]) -> (usize, usize) {
        let cost = steps.iter().map(|&step| self.actions[step].cost).sum();
        (cost, steps.len())
    }

    /// Steps are told by their index in the plan.
    pub fn eliminated(&self) -> Vec<usize> {
        self.eliminated_if(all_hold)
    }

    /// The same by any test.
    pub fn eliminated_if(&self, test: impl Test) -> Vec<usize> {
        let mut steps: Vec<usize> = (0..self.actions.len()).collect();
        let mut state = self.task.start();
        let mut next = 0;
        while next < steps.len() {
            if let Some(success) = self.trial(test, &steps[next..], state) {
                steps.truncate(next);
                steps.extend(success.kept);
            } else {
                do_step_if(test, self.actions[steps[next]], &mut state);
                next += 1;
            }
        }
        steps
    }

    pub fn greedily_eliminated(&self) -> Vec<usize> {
        let mut steps: Vec<usize> = (0..self.actions.len()).collect();
        while let Some((position, success)) = self.best_trial(&steps) {
            steps.truncate(position);
            steps.extend(success.kept);
        }
        steps
    }

    /// Of the trials at every position of the list, the success that strikes the most cost, then
    /// the most steps, then the earliest.
    fn best_trial(&self, steps: &[usize]) -> Option<(usize, Success)> {
        let mut best: Option<(usize, Success)> = None;
        let mut state = self.task.start();
        for (position, &step) in steps.iter().enumerate() {
            if let Some(success) = self.trial(all_hold, &steps[position..], state) {
                let is_better = best.as_ref().is_none_or(|(_, best)| {
                    (success.cost, success.steps) > (best.cost, best.steps)
                });
                if is_better {
                    best = Some((position, success));
                }
            }
            do_step(self.actions[step], &mut state);
        }
        best
    }

    /// Strikes the first of these steps, which are walked from `state`, and each later one that
    /// can't be done. The goal is looked at once, after the walk.
    fn trial(&self, test: impl Test, steps: &[usize], mut state: State) -> Option<Success> {
        let (&struck, later) = steps.split_first()?;
        let mut success = Success {
            cost: self.actions[struck].cost,
            steps: 1,
            kept: Vec::with_capacity(later.len()),
        };
        for &step in later {
            let action = self.actions[step];
            if do_step_if(test, action, &mut state) {
                success.kept.push(step);
            } else {
                success.cost += action.cost;
                success.steps += 1;
            }
        }
        test(self.task.goal(), &state).then_some(success)
    }
}
