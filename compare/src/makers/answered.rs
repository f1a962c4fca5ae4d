//! Plans whose marks and reductions are known by the way that they are made. Among them are knots,
//! whose steps hold each other, so that neither elimination strikes one of them, and so that none is
//! marked.

use super::parts::{chain, drain_in_lane, gate_actions, gate_goal, gate_lane, gate_turns};
use super::parts::{laid_into_each_other, GATE_ACTIONS};
use super::{action, fact, Action, Fact, List, Random, Task};
use std::cmp::Reverse;
use std::iter::repeat_n;

pub const COSTS: [u32; 4] = [0, 1, 2, 3];

/// Needed steps, each of which makes the next one possible and the last one the goal, with lamps
/// that nothing needs between them.
pub fn with_lamps(random: &mut Random, needed: usize, lamps: usize) -> List {
    let (counter, lamp) = (0, 1);
    let mut actions = chain(counter, needed, || random.pick(&COSTS));
    actions.push(action(random.pick(&COSTS), vec![], vec![fact(lamp, 1)]));
    let (mut plan, mut kept) = (Vec::new(), Vec::new());
    for (step, is_needed) in random
        .choose(needed, needed + lamps)
        .into_iter()
        .enumerate()
    {
        if is_needed {
            plan.push(kept.len() as u32);
            kept.push(step);
        } else {
            plan.push(needed as u32);
        }
    }
    let sizes = vec![needed as u32 + 1, 2];
    let task = Task::from_zero(sizes, vec![fact(counter, needed)], actions);
    List::alike(task, plan, kept.clone(), kept)
}

/// The fact that every way ends in; a way's own variable stands behind it.
const WAYS_GOAL: Fact = Fact {
    variable: 0,
    value: 1,
};

/// Several ways to one goal. A trial succeeds while two of them are left, and the one at a way's
/// first step strikes the most of it: so elimination is left with the way that begins last, and
/// greedy elimination with the cheapest, of those the shortest, of those the one that begins last,
/// which strikes where it first differs from another. Steps are marked where there is only one way.
pub fn with_ways(random: &mut Random) -> List {
    let variables = 1..=random.size(1..=4);
    let ways: Vec<Vec<Action>> = variables.map(|v| random_way(random, v)).collect();
    let mut numbers = 0..;
    let lane = |way: &Vec<Action>| numbers.by_ref().take(way.len()).collect();
    let lanes: Vec<Vec<u32>> = ways.iter().map(lane).collect();
    let (plan, places) = laid_into_each_other(random, &lanes);
    let cost = |way: &[Action]| way.iter().map(|action| action.cost).sum::<u32>();
    let ranked = places.iter().zip(&ways);
    let cheapest = ranked.min_by_key(|(p, way)| (cost(way), way.len(), Reverse(p[0])));
    let beginning_last = places.iter().max_by_key(|p| p[0]);
    let only = places.first().filter(|_| ways.len() == 1);
    let sizes = ways.iter().map(|way| way.len() as u32 + 1);
    let sizes = [WAYS_GOAL.value + 1].into_iter().chain(sizes).collect();
    let task = Task::from_zero(sizes, vec![WAYS_GOAL], ways.concat());
    let cheapest = cheapest.map_or(Vec::new(), |(p, _)| p.clone());
    let marked = only.cloned().unwrap_or_default();
    let mut list = List::alike(task, plan, marked, cheapest);
    list.known.eliminated = Some(beginning_last.cloned().unwrap_or_default());
    list
}

/// A step that gives two goal facts, between two that give one of them each. Elimination strikes
/// the first step and then the last. Greedy elimination begins with the dearest step, the first of
/// those: so it keeps the outer ones where the inner one is dearer than the first and no cheaper
/// than the last.
pub fn with_cover(random: &mut Random) -> List {
    let goal: Vec<Fact> = (0..2).map(|goal| fact(goal, 1)).collect();
    let given = [vec![goal[0]], goal.clone(), vec![goal[1]]];
    let costs = given.each_ref().map(|_| random.pick(&COSTS));
    let [first, inner, last] = costs;
    let actions = given.into_iter().zip(costs);
    let actions = actions.map(|(effects, cost)| action(cost, vec![], effects));
    let task = Task::from_zero(vec![2; goal.len()], goal, actions.collect());
    let kept = |is_outer| if is_outer { vec![0, 2] } else { vec![1] };
    let mut list = List::alike(task, (0..3).collect(), Vec::new(), kept(false));
    list.known.greedy = Some(kept(inner > first && inner >= last));
    list.known.exact = Some(kept(inner > first + last));
    list
}

/// A chain whose last step gives the goal.
fn random_way(random: &mut Random, variable: usize) -> Vec<Action> {
    let last = random.size(0..=3);
    let mut way = chain(variable, last + 1, || random.pick(&COSTS));
    way[last].effects.insert(0, WAYS_GOAL);
    way
}

/// Gates that are each lifted and dropped some times, and once drained in between; the goal is all
/// drained and dropped. Every drain is marked, the lift before it if it is the first, and then the
/// drop behind it if it is the last; otherwise lifts and drops only support each other. What is kept
/// is the last lift before the drain, the drain, and the last drop of all: a drop goes with the lift
/// behind it.
pub fn with_gates(random: &mut Random) -> List {
    let gates = random.size(1..=4);
    let turns: Vec<[usize; 2]> = (0..gates)
        .map(|_| [random.size(0..=2), random.size(0..=2)])
        .collect();
    let lanes: Vec<Vec<u32>> = (0..gates)
        .map(|gate| gate_lane(gate, turns[gate]))
        .collect();
    let (plan, places) = laid_into_each_other(random, &lanes);
    let (mut marked, mut kept) = (Vec::new(), Vec::new());
    for (places, [before, after]) in places.iter().zip(turns) {
        let drain = drain_in_lane(before);
        let (first, last) = match (before, after) {
            (0, 0) => (drain - 1, drain + 1),
            (0, _) => (drain - 1, drain),
            _ => (drain, drain),
        };
        marked.extend(&places[first..=last]);
        kept.extend(&places[drain - 1..=drain]);
        kept.extend(places.last());
    }
    marked.sort();
    kept.sort();
    let mut cost = || random.pick(&COSTS);
    let actions = (0..gates).flat_map(|gate| gate_actions(gate, &mut cost));
    let actions = actions.collect();
    let goal = (0..gates).flat_map(gate_goal).collect();
    let task = Task::from_zero(vec![2; 2 * gates], goal, actions);
    List::alike(task, plan, marked, kept)
}

/// Needed steps, and gates that are lifted and dropped again for nothing. The goal has all gates
/// shut, as they are at the start: so each lift and each drop would be marked if the others were.
pub fn with_idle_gates(random: &mut Random, needed: usize) -> List {
    let gates = random.size(1..=4);
    let counter = 2 * gates;
    let first_needed = GATE_ACTIONS * gates;
    let mut lanes = vec![(first_needed as u32..).take(needed).collect()];
    for gate in 0..gates {
        lanes.push(gate_turns(gate, random.size(1..=3)));
    }
    let (plan, places) = laid_into_each_other(random, &lanes);
    let mut cost = || random.pick(&COSTS);
    let gate_actions = (0..gates).flat_map(|gate| gate_actions(gate, &mut cost));
    let mut actions: Vec<Action> = gate_actions.collect();
    actions.extend(chain(counter, needed, &mut cost));
    let shut = (0..gates).map(|gate| gate_goal(gate)[0]);
    let goal = shut.chain([fact(counter, needed)]).collect();
    let sizes = repeat_n(2, counter).chain([needed as u32 + 1]).collect();
    let task = Task::from_zero(sizes, goal, actions);
    List::alike(task, plan, places[0].clone(), places[0].clone())
}

/// The fewest gates that are tied: the lift and the drop of one gate alone are struck together.
pub const FEWEST_TIED: usize = 2;

/// Gates that are lifted one by one and dropped by one step, which needs them all open. They are
/// shut at the start and in the goal, so that all the steps can be struck. A trial at a lift
/// strikes the drop with it and leaves the other gates open, and one at the drop leaves them all
/// open.
pub fn tied_gates(random: &mut Random, gates: usize) -> List {
    let all = |value| (0..gates).map(|gate| fact(gate, value)).collect();
    let mut cost = || random.pick(&COSTS);
    let lift = |gate| action(cost(), vec![fact(gate, 0)], vec![fact(gate, 1)]);
    let mut actions: Vec<_> = (0..gates).map(lift).collect();
    random.shuffle(&mut actions);
    actions.push(action(random.pick(&COSTS), all(1), all(0)));
    let task = Task::from_zero(vec![2; gates], all(0), actions);
    let mut knot = knot(task);
    knot.known.exact = Some(Vec::new());
    knot.known.idle = (0..=gates).collect();
    knot
}

/// The steps of twins.
pub const TWINS: usize = 2;

/// Two steps that both drain a basin. The first one opens a gate, too; the other one can be done
/// only then, and shuts it. Both are needed, since only the first can be done at the start, and
/// only the other shuts the gate; but neither is the one that drains, so that none is marked.
pub fn twins(random: &mut Random) -> List {
    let [shut, open, drained] = [fact(0, 0), fact(0, 1), fact(1, 1)];
    let mut cost = || random.pick(&COSTS);
    let actions = vec![
        action(cost(), vec![], vec![open, drained]),
        action(cost(), vec![open], vec![shut, drained]),
    ];
    knot(Task::from_zero(vec![2; 2], vec![shut, drained], actions))
}

/// One step of each action, of which none is struck and none is marked.
fn knot(task: Task) -> List {
    let steps = task.actions.len();
    let plan = (0..steps as u32).collect();
    let mut list = List::alike(task, plan, Vec::new(), (0..steps).collect());
    list.known.unmarked_left = steps;
    list
}
