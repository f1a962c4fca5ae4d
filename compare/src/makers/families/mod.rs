//! Plans that are hard for the exact reduction, or were before the marks of document 02: a chain of
//! marked steps, each of which makes the next one possible and the last one the goal, and in front of
//! them, behind them or between them steps of which most are not marked. Some families have a late
//! step or two that stand behind the chain in any case.

mod late;
mod part;

use super::parts::{chain, drain_in_lane, gate_actions, gate_goal, gate_lane};
use super::parts::{laid_into_each_other, GATE_ACTIONS};
use super::{action, fact, Action, Fact, List, Random};
use part::Part;
use std::cmp::Reverse;
use std::ops::RangeInclusive;
use Family::{Covers, Dear, Decoys, Gates, Keys, Laden, Lamps, Vault, Writers};

#[derive(Clone, Copy, Debug)]
pub enum Family {
    /// Steps that set variables which nothing needs.
    Lamps,
    /// Several steps for each goal fact, of which one is enough.
    Writers,
    /// Steps that each give some of the goal facts.
    Covers,
    /// Gates that are lifted and dropped, and lifted again, drained and dropped.
    Gates,
    /// Cheap steps that set variables which nothing needs; late, two dear ones for a goal fact.
    Dear,
    /// Cheap steps that set keys; late, two dear doors that each need many of the keys.
    Keys,
    /// Cheap steps that set keys; late, the one door that needs all the keys, and that shuts again
    /// what the chain has opened.
    Vault,
    /// Cheap steps that set what the chain sets again before it needs it; late, a dear step that
    /// shuts again what the chain has opened.
    Decoys,
    /// Decoys that need and set many variables, which the first of them spoils: they show what facts
    /// cost, since they take about as many turns as decoys.
    Laden,
}

pub const FAMILIES: [Family; 9] = [
    Lamps, Writers, Covers, Gates, Dear, Keys, Vault, Decoys, Laden,
];

impl Family {
    /// Whether the exact reduction takes a turn or two for each choice of the unmarked steps, at some
    /// placement at least: nothing tells early that a choice comes to nothing.
    pub fn defeats_cuts(self) -> bool {
        matches!(self, Keys)
    }
}

/// Where the steps of the family stand to the chain.
#[derive(Clone, Copy, Debug)]
pub enum Placement {
    Front,
    Spread,
    End,
}

pub const PLACEMENTS: [Placement; 3] = [Placement::Front, Placement::Spread, Placement::End];

impl Placement {
    /// Whether each of all the steps is one of so many of the family's.
    pub fn turns(self, random: &mut Random, own: usize, all: usize) -> Vec<bool> {
        match self {
            Placement::Front => (0..all).map(|step| step < own).collect(),
            Placement::End => (0..all).map(|step| step >= all - own).collect(),
            Placement::Spread => random.choose(own, all),
        }
    }
}

/// So many lamps have variables of their own; further ones share them.
const MOST_LAMPS: usize = 32;
/// The goal facts that writers or covers give.
const MOST_GOALS: usize = 10;
const MOST_GATES: usize = 8;
/// The goal facts that one cover gives.
const MOST_IN_COVER: usize = 4;
/// The unmarked steps of a gate: all but the drain, since the first lift and drop go before it.
const GATE_STEPS: usize = 4;
/// A gate is lifted and dropped once before it is lifted and drained.
const GATE_TURNS: [usize; 2] = [1, 0];

/// The steps of the plan; how many of them the family brings, not counting the drains of gates; what
/// the costs are taken from.
#[derive(Clone)]
pub struct Shape {
    pub family: Family,
    pub placement: Placement,
    pub steps: usize,
    pub size: usize,
    pub costs: RangeInclusive<u32>,
}

impl Shape {
    /// The number of unmarked steps is known and, where the way that the plan is made says so, what
    /// the exact reduction keeps.
    pub fn make(&self, random: &mut Random) -> List {
        let mut part = self.part(random);
        let turns = self.turns(random, &part);
        let (counter, length) = (part.sizes.len(), self.steps - part.steps.len());
        let first_of_chain = part.actions.len() as u32;
        let mut chain = chain(counter, length, || self.cost(random));
        part.put_into(&mut chain);
        part.sizes.push(length as u32 + 1);
        part.goal.push(fact(counter, length));
        part.actions.extend(chain);
        part.laid_into(first_of_chain, &turns)
    }

    /// A family that has no room is lamps.
    fn part(&self, random: &mut Random) -> Part {
        match self.family {
            Writers if self.size >= 2 => self.writers(random),
            Covers if self.size >= 2 => self.covers(random),
            Gates => self.gates(random),
            Dear if self.size >= 2 => self.dear(random),
            Keys if self.size >= 2 => self.keys(random),
            Vault if self.has_room_for_late() => self.vault(random),
            Decoys if self.has_room_for_late() => self.decoys(random),
            Laden if self.has_room_for_late() => self.laden(random),
            _ => self.lamps(random),
        }
    }

    /// Whether each step of the plan is the family's.
    fn turns(&self, random: &mut Random, part: &Part) -> Vec<bool> {
        let own = part.steps.len() - part.late;
        let all = self.steps - part.late;
        let mut turns = self.placement.turns(random, own, all);
        turns.resize(self.steps, true);
        turns
    }

    fn cost(&self, random: &mut Random) -> u32 {
        random.within(self.costs.clone())
    }

    /// Actions without preconditions, each of which gives its effects.
    fn setters(
        &self,
        random: &mut Random,
        effects: impl Iterator<Item = Vec<Fact>>,
    ) -> Vec<Action> {
        effects
            .map(|effects| action(self.cost(random), vec![], effects))
            .collect()
    }

    fn lamp_actions(&self, random: &mut Random, first: usize, lamps: usize) -> Vec<Action> {
        let lit = |lamp| vec![fact(first + lamp % MOST_LAMPS, 1)];
        self.setters(random, (0..lamps).map(lit))
    }

    fn lamps(&self, random: &mut Random) -> Part {
        Part {
            sizes: vec![2; self.size.min(MOST_LAMPS)],
            goal: Vec::new(),
            actions: self.lamp_actions(random, 0, self.size),
            steps: (0..self.size as u32).collect(),
            kept: Some(vec![false; self.size]),
            ..Part::default()
        }
    }

    /// Of the writers of a goal fact the cheapest is kept, of those the last.
    fn writers(&self, random: &mut Random) -> Part {
        let goals = (self.size / 2).min(MOST_GOALS);
        let mut written: Vec<usize> = (0..self.size).map(|step| step % goals).collect();
        random.shuffle(&mut written);
        let actions = self.setters(random, written.iter().map(|&goal| vec![fact(goal, 1)]));
        let mut kept = vec![false; self.size];
        for goal in 0..goals {
            let writers = (0..self.size).filter(|&step| written[step] == goal);
            let best = writers.min_by_key(|&step| (actions[step].cost, Reverse(step)));
            kept[best.expect("every goal fact has writers")] = true;
        }
        Part::asking_for(goals, actions, Some(kept))
    }

    /// Each goal fact has two writers or more, so that none is marked.
    fn covers(&self, random: &mut Random) -> Part {
        let goals = (self.size / 2).min(MOST_GOALS);
        let mut covered: Vec<Vec<bool>> = (0..self.size)
            .map(|_| {
                let given = random.size(2.min(goals)..=MOST_IN_COVER.min(goals));
                random.choose(given, goals)
            })
            .collect();
        for goal in 0..goals {
            for step in 0..2 {
                let step = (step + goal) % self.size;
                covered[step][goal] |= covered.iter().filter(|cover| cover[goal]).count() < 2;
            }
        }
        let effects = |cover: &Vec<bool>| {
            let given = (0..goals).filter(|&goal| cover[goal]);
            given.map(|goal| fact(goal, 1)).collect()
        };
        let actions = self.setters(random, covered.iter().map(effects));
        Part::asking_for(goals, actions, None)
    }

    /// Steps that are left over are lamps.
    fn gates(&self, random: &mut Random) -> Part {
        let gates = (self.size / GATE_STEPS).min(MOST_GATES);
        let lamps = self.size - GATE_STEPS * gates;
        let first_lamp = GATE_ACTIONS * gates;
        let gate_lanes = (0..gates).map(|gate| gate_lane(gate, GATE_TURNS));
        let lamp_lanes = (0..lamps).map(|lamp| vec![(first_lamp + lamp) as u32]);
        let lanes: Vec<Vec<u32>> = gate_lanes.chain(lamp_lanes).collect();
        let (steps, places) = laid_into_each_other(random, &lanes);
        let mut kept = vec![false; steps.len()];
        for lane in places.iter().take(gates) {
            // The lift before the drain, the drain and the drop behind it.
            for &place in &lane[drain_in_lane(GATE_TURNS[0]) - 1..] {
                kept[place] = true;
            }
        }
        let mut actions: Vec<Action> = (0..gates)
            .flat_map(|gate| gate_actions(gate, || self.cost(random)))
            .collect();
        actions.extend(self.lamp_actions(random, 2 * gates, lamps));
        Part {
            sizes: vec![2; 2 * gates + lamps.min(MOST_LAMPS)],
            goal: (0..gates).flat_map(gate_goal).collect(),
            actions,
            steps,
            marked: gates,
            kept: Some(kept),
            ..Part::default()
        }
    }
}
