//! A small seeded generator (splitmix64), so that every case can be made again from its seed.

use std::ops::RangeInclusive;

/// Words at which a limit, a byte or a sign would show a slip.
const EDGE_WORDS: [u32; 7] = [0, 1, 255, 256, 257, 1 << 31, u32::MAX];

const GOLDEN_GAMMA: u64 = 0x9e37_79b9_7f4a_7c15;

pub struct Random {
    state: u64,
}

impl Random {
    /// The generator of one case: it rests on the seed and the case's number only, so a case can be
    /// made alone.
    pub fn of_case(seed: u64, case: u64) -> Self {
        let state = scramble(seed) ^ scramble(case.wrapping_add(GOLDEN_GAMMA));
        Random { state }
    }

    /// Any word of 64 bits: one that a service is not likely to write by chance.
    pub fn filler(&mut self) -> u64 {
        self.state = self.state.wrapping_add(GOLDEN_GAMMA);
        scramble(self.state)
    }

    /// An index below `count`, which is not 0.
    pub fn index(&mut self, count: usize) -> usize {
        ((u128::from(self.filler()) * count as u128) >> u64::BITS) as usize
    }

    /// The index of one of these, unless there is none.
    pub fn index_in<T>(&mut self, all: &[T]) -> Option<usize> {
        (!all.is_empty()).then(|| self.index(all.len()))
    }

    pub fn within(&mut self, range: RangeInclusive<u32>) -> u32 {
        self.size(*range.start() as usize..=*range.end() as usize) as u32
    }

    pub fn size(&mut self, range: RangeInclusive<usize>) -> usize {
        range.start() + self.index(range.end() - range.start() + 1)
    }

    /// True once in `times`.
    pub fn once_in(&mut self, times: usize) -> bool {
        self.index(times) == 0
    }

    pub fn pick<T: Copy>(&mut self, choices: &[T]) -> T {
        choices[self.index(choices.len())]
    }

    /// Which of `all` are chosen, so that `count` are and each choice is as likely as the others.
    pub fn choose(&mut self, count: usize, all: usize) -> Vec<bool> {
        let mut left = count;
        let is_chosen = |index| {
            let is_chosen = self.index(all - index) < left;
            left -= usize::from(is_chosen);
            is_chosen
        };
        (0..all).map(is_chosen).collect()
    }

    pub fn shuffle<T>(&mut self, items: &mut [T]) {
        for last in (1..items.len()).rev() {
            items.swap(last, self.index(last + 1));
        }
    }

    /// Any word, half of the time one at an edge.
    pub fn word(&mut self) -> u32 {
        if self.once_in(2) {
            self.pick(&EDGE_WORDS)
        } else {
            self.filler() as u32
        }
    }
}

/// The output step of splitmix64.
fn scramble(state: u64) -> u64 {
    let mixed = (state ^ (state >> 30)).wrapping_mul(0xbf58_476d_1ce4_e5b9);
    let mixed = (mixed ^ (mixed >> 27)).wrapping_mul(0x94d0_49bb_1331_11eb);
    mixed ^ (mixed >> 31)
}
