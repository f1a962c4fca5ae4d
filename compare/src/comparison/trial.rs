//! Tries the claims of the licence on all reductions of short plans, at limits so low that these
//! come to each claim, and the marks with them. No search is trusted here.

use super::record::Claims;
use super::self_test::numbered_cases;
use crate::rules::license::{Ways, BY_RULES};
use crate::rules::{has, steps_of, Claim, Kept, Lodged, MAX_UNMARKED};

/// All reductions of plans of at most so many steps are gone through.
const FEW_STEPS: usize = 12;
/// The random cases that are made; those without a short plan are passed over.
const CASES: u64 = 15_000;
const LIMITS: [usize; 6] = [0, 1, 2, 4, 6, MAX_UNMARKED];

/// Answers whether every claim holds, and each was seen.
pub fn claims_hold(seed: u64) -> bool {
    let mut claims = Claims::default();
    let cases = numbered_cases(seed, CASES);
    for (number, case) in cases.filter(|(_, case)| case.call.service.takes_plan()) {
        let Some(trial) = Trial::of(&case.lent.words, &case.lent.plan) else {
            continue;
        };
        let mut of_limits = LIMITS.iter();
        let wrong = of_limits.find_map(|&limit| trial.wrong_licence(limit, &mut claims));
        if let Some(wrong) = wrong.or_else(|| trial.wrong_mark()) {
            println!("{wrong}: --seed {seed} --case {number}");
            return false;
        }
    }
    claims.print("short lists, tried on all reductions");
    claims.show_all()
}

/// A short plan with all its valid reductions.
struct Trial<'a> {
    words: &'a [u32],
    lodged: Lodged<'a>,
    valid: Vec<Vec<bool>>,
}

impl<'a> Trial<'a> {
    fn of(words: &'a [u32], plan: &'a [u32]) -> Option<Self> {
        let lodged = Lodged::check(words, plan, &[]).ok()?;
        (plan.len() <= FEW_STEPS).then_some(())?;
        Some(Trial {
            valid: lodged.valid_reductions().collect(),
            words,
            lodged,
        })
    }

    /// Every valid reduction keeps every marked step: so nothing can be struck where all are
    /// marked.
    fn wrong_mark(&self) -> Option<&'static str> {
        let marked = self.lodged.marked();
        let keeps_marked = |kept: &Vec<bool>| {
            let mut steps = kept.iter().enumerate();
            steps.all(|(step, &is_kept)| is_kept || !has(&marked, step))
        };
        let all_keep = self.valid.iter().all(keeps_marked);
        (!all_keep).then_some("a marked step can be struck")
    }

    /// What is wrong with the licence at this limit, if something is.
    fn wrong_licence(&self, limit: usize, claims: &mut Claims) -> Option<&'static str> {
        let plan = self.lodged.plan;
        let limits = [limit; 2];
        let ways = Ways { limits, ..BY_RULES };
        let licence = ways.license(self.words, plan, plan.len());
        let Ok((licensed, grounds)) = licence else {
            return Some("a valid plan is refused");
        };
        claims.count(&licensed, &grounds);
        let of_reduction = self.wrong_reduction(&licensed.kept);
        of_reduction.or_else(|| self.wrong_claim(licensed.claim, limit, &licensed.kept))
    }

    /// What is left is valid, it is told alike by the tally, the mask and the words, and neither
    /// elimination is cheaper.
    fn wrong_reduction(&self, kept: &Kept) -> Option<&'static str> {
        let lodged = &self.lodged;
        let flags = self.flags(kept);
        let again = lodged.keeping(&steps_of(&flags));
        let told = (kept.cost, kept.actions.len());
        let eliminations = [lodged.eliminated(), lodged.greedily_eliminated()];
        let is_cheaper = |steps: &Vec<usize>| lodged.tally(steps) < told;
        if !self.valid.contains(&flags) {
            Some("what is left is not valid")
        } else if *kept != again {
            Some("the tally, the mask and the words differ")
        } else {
            let is_wrong = eliminations.iter().any(is_cheaper);
            is_wrong.then_some("an elimination is cheaper")
        }
    }

    fn wrong_claim(&self, claim: Claim, limit: usize, kept: &Kept) -> Option<&'static str> {
        let flags = self.flags(kept);
        let key = |kept: &Vec<bool>| (self.lodged.counts(kept), kept.clone());
        let is_least = self.valid.iter().all(|other| key(other) >= key(&flags));
        let keeps_more = |other: &Vec<bool>| *other == flags || !is_within(other, &flags);
        let is_irreducible = self.valid.iter().all(keeps_more);
        let left = Lodged::check(self.words, &kept.actions, &[]);
        let unmarked = left.map_or(0, |left| left.outside(left.marked_by_rounds().0));
        let may_be_least = self.lodged.unmarked() <= limit;
        let holds = match claim {
            Claim::Least => may_be_least && is_least && is_irreducible,
            Claim::Irreducible => !may_be_least && is_irreducible,
            Claim::Open(count) => !may_be_least && count == unmarked && count > limit,
        };
        (!holds).then_some("the claim does not hold")
    }

    /// Whether each step of the plan is kept.
    fn flags(&self, kept: &Kept) -> Vec<bool> {
        let steps = 0..self.lodged.actions.len();
        steps.map(|step| has(&kept.mask, step)).collect()
    }
}

/// Whether all that is kept in the first is kept in the second.
fn is_within(inner: &[bool], outer: &[bool]) -> bool {
    let mut both = inner.iter().zip(outer);
    both.all(|(inner, outer)| inner <= outer)
}
