//! The licence of a plan: what is left of it, and the strongest claim about that. It is put
//! together of the marks, both eliminations and the exact reduction.

use super::{Kept, Lodged, Mask, Refusal, MAX_UNMARKED};
use std::fmt;

/// What is claimed of the plan that is left.
#[derive(Clone, Copy, PartialEq, Eq)]
pub enum Claim {
    /// So many of its steps are unmarked, and they are too many to tell more.
    Open(usize),
    /// No step can be struck from it.
    Irreducible,
    /// It is the exact reduction of the lodged plan.
    Least,
}

impl Claim {
    /// The claim's strength, and how many steps are open.
    pub fn numbers(self) -> [usize; 2] {
        match self {
            Claim::Open(count) => [0, count],
            Claim::Irreducible => [1, 0],
            Claim::Least => [2, 0],
        }
    }
}

/// As the program prints it.
impl fmt::Display for Claim {
    fn fmt(&self, formatter: &mut fmt::Formatter) -> fmt::Result {
        match self {
            Claim::Open(count) => write!(formatter, "open {count}"),
            Claim::Irreducible => write!(formatter, "irreducible"),
            Claim::Least => write!(formatter, "least"),
        }
    }
}

pub struct Licensed {
    pub claim: Claim,
    /// Of the lodged plan.
    pub kept: Kept,
}

/// What a licence goes by.
#[derive(Clone, Copy)]
pub struct Ways {
    /// The most unmarked steps of the lodged plan, and of what an elimination leaves of it, that
    /// are reduced exactly. With lower ones than 20 short plans come to all claims.
    pub limits: [usize; 2],
    pub marked: fn(&Lodged) -> Mask,
    /// The exact reduction as the steps that it keeps; it is told the marks.
    pub least: fn(&Lodged, Mask) -> Vec<usize>,
    /// The steps that the cheaper elimination keeps.
    pub cheaper: fn(&Lodged) -> Vec<usize>,
}

/// The exact reduction of the rules knows nothing of marks.
pub const BY_RULES: Ways = Ways {
    limits: [MAX_UNMARKED; 2],
    marked: |lodged| lodged.marked(),
    least: |lodged, _| lodged.least(),
    cheaper: |lodged| lodged.cheaper_eliminated(),
};

/// Ways like the library's, so that the two can be timed against each other.
pub const BY_SEARCH: Ways = Ways {
    marked: |lodged| lodged.marked_by_passes().0,
    least: |lodged, marked| lodged.least_by_search(marked),
    ..BY_RULES
};

/// What a claim rests on: the steps of the lodged plan, or else those that the cheaper elimination
/// leaves of it, and how many of them are unmarked.
pub struct Grounds {
    pub steps: Vec<usize>,
    pub unmarked: usize,
}

/// Refusals 1 to 11.
pub fn license(words: &[u32], plan: &[u32], output: usize) -> Result<Licensed, Refusal> {
    let licence = BY_RULES.license(words, plan, output);
    licence.map(|(licensed, _)| licensed)
}

/// The same by passes and by the search.
pub fn license_by_search(words: &[u32], plan: &[u32], output: usize) -> Result<Licensed, Refusal> {
    let licence = BY_SEARCH.license(words, plan, output);
    licence.map(|(licensed, _)| licensed)
}

impl Ways {
    pub fn license(
        self,
        words: &[u32],
        plan: &[u32],
        output: usize,
    ) -> Result<(Licensed, Grounds), Refusal> {
        let lodged = Lodged::check(words, plan, &[output])?;
        let all = (0..plan.len()).collect();
        let (least, grounds) = self.least_within(self.limits[0], &lodged, all);
        if let Some(steps) = least {
            return Ok((lodged.licensed(Claim::Least, &steps), grounds));
        }
        let steps = (self.cheaper)(&lodged);
        let left = lodged.keeping(&steps).actions;
        let left = Lodged::check(words, &left, &[])?;
        let (least, grounds) = self.least_within(self.limits[1], &left, steps);
        let licensed = match least {
            Some(least) => {
                let kept: Vec<usize> = least.iter().map(|&step| grounds.steps[step]).collect();
                lodged.licensed(Claim::Irreducible, &kept)
            }
            None => lodged.licensed(Claim::Open(grounds.unmarked), &grounds.steps),
        };
        Ok((licensed, grounds))
    }

    /// The exact reduction of the plan of these steps, unless more of them are unmarked than the
    /// limit says.
    fn least_within(
        self,
        limit: usize,
        lodged: &Lodged,
        steps: Vec<usize>,
    ) -> (Option<Vec<usize>>, Grounds) {
        let marked = (self.marked)(lodged);
        let unmarked = lodged.outside(marked);
        let least = (unmarked <= limit).then(|| (self.least)(lodged, marked));
        (least, Grounds { steps, unmarked })
    }
}

impl Lodged<'_> {
    /// The claim about these steps.
    pub fn licensed(&self, claim: Claim, steps: &[usize]) -> Licensed {
        let kept = self.keeping(steps);
        Licensed { claim, kept }
    }
}
