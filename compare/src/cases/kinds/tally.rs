//! Tallies of any words, most of them near the limits, and the kept parts that they choose.

use super::{case_with, fillers, Make};
use crate::cases::{Case, Service};
use crate::makers::Random;
use crate::rules;

pub const KINDS: &[(&str, Make)] = kinds! { random:
    "tally: any words" => {
        let tally = random_tally(random);
        let any = random.word();
        let within_limit = random.within(0..=rules::MAX_ACTION_COST as u32);
        let cost = random.pick(&[any, within_limit]);
        add(random, tally, cost)
    },
    "tally: sum near a limit" => near_a_limit(random),
    "tally: comparison" => {
        let numbers = near_each_other(random);
        let case = Case::without_sheet(Service::TallyCompare, 0);
        Some(case.with_numbers(numbers))
    },
};

pub const PART_KINDS: &[(&str, Make)] = kinds! { random:
    "part: tallies of the outputs" => {
        let outputs = random_outputs(random);
        let [[cost, steps], [second_cost, second_steps]] = [0, 1].map(|index| {
            let cost = random.within(0..=2);
            [cost, steps_for(random, &outputs[index])]
        });
        let numbers = [cost, steps, second_cost, second_steps];
        part_case(random, outputs, numbers)
    },
    "part: any tallies" => {
        let outputs = random_outputs(random);
        let numbers = near_each_other(random);
        part_case(random, outputs, numbers)
    },
};

fn add(random: &mut Random, [cost, steps]: [u32; 2], more: u32) -> Option<Case> {
    let case = case_with(random, Service::TallyAdd, &[], &[], [0; 2]);
    Some(case.with_numbers([cost, steps, more, 0]))
}

/// The sum of the costs is the limit, 2^32, or a number beside them.
fn near_a_limit(random: &mut Random) -> Option<Case> {
    let limit = rules::MAX_TALLY_COST as u32;
    let costs = [0, 1, rules::MAX_ACTION_COST as u32, limit, random.word()];
    let cost = random.pick(&costs);
    let two_to_the_32 = 0;
    let sum = near(random, &[limit, two_to_the_32]);
    let tally = [sum.wrapping_sub(cost), random_steps(random)];
    add(random, tally, cost)
}

/// One of the words, or one beside it.
fn near(random: &mut Random, words: &[u32]) -> u32 {
    let word = random.pick(words);
    random.pick(&[word.wrapping_sub(1), word, word.wrapping_add(1)])
}

fn random_steps(random: &mut Random) -> u32 {
    let any = random.word();
    let few = random.within(0..=rules::MAX_STEPS as u32);
    let edge = near(random, &[rules::MAX_STEPS as u32]);
    random.pick(&[any, few, edge])
}

/// Cost and steps.
fn random_tally(random: &mut Random) -> [u32; 2] {
    let any = random.word();
    let within_limit = random.within(0..=rules::MAX_TALLY_COST as u32);
    [random.pick(&[any, within_limit]), random_steps(random)]
}

/// Two tallies, half of which differ in one field by one, or not at all.
fn near_each_other(random: &mut Random) -> [u32; 4] {
    let [cost, steps] = random_tally(random);
    let [second_cost, second_steps] = match random.index(6) {
        0 => [cost, steps],
        1 => [near(random, &[cost]), steps],
        2 => [cost, near(random, &[steps])],
        _ => random_tally(random),
    };
    [cost, steps, second_cost, second_steps]
}

const LONGEST_OUTPUT: usize = 12;

fn random_outputs(random: &mut Random) -> [Vec<u32>; 2] {
    [(); 2].map(|_| {
        let length = random.size(0..=LONGEST_OUTPUT);
        fillers(random, length)
    })
}

/// Steps of a tally for an output: as many as it has words, fewer, or one more or fewer.
fn steps_for(random: &mut Random, output: &[u32]) -> u32 {
    let words = output.len() as u32;
    let fewer = random.within(0..=words);
    let beside = near(random, &[words]);
    random.pick(&[words, fewer, beside])
}

fn part_case(random: &mut Random, outputs: [Vec<u32>; 2], numbers: [u32; 4]) -> Option<Case> {
    let length = random.size(0..=LONGEST_OUTPUT + 1);
    let case = Case::of_parts(outputs, fillers(random, length));
    Some(case.with_numbers(numbers))
}
