//! The words of a sheet together with where its parts truly stand, whatever its words say by now:
//! so one fault can be put beside another.

use super::{Random, Task};
use crate::rules::{self, pair_word};
use std::ops::Range;

pub struct Sheet {
    pub words: Vec<u32>,
    /// The word indices of each pair's part.
    pub parts: Vec<Range<usize>>,
    /// The number of preconditions of each action.
    preconditions: Vec<usize>,
}

/// The word index of a pair's length.
pub fn length_word(pair: usize) -> usize {
    pair_word(pair) + 1
}

impl Sheet {
    pub fn of(task: &Task) -> Self {
        let words = task.words();
        Sheet {
            parts: rules::parts(&words),
            words,
            preconditions: task.actions.iter().map(|a| a.preconditions.len()).collect(),
        }
    }

    pub fn variables(&self) -> usize {
        self.parts[rules::SIZES_PAIR].len()
    }

    pub fn actions(&self) -> usize {
        self.preconditions.len()
    }

    pub fn last_pair(&self) -> usize {
        self.parts.len() - 1
    }

    /// The index of the word behind the pairs.
    pub fn pairs_end(&self) -> usize {
        self.parts[rules::SIZES_PAIR].start
    }

    /// The word at an index that an earlier fault may have cut off.
    pub fn get(&self, index: usize) -> u32 {
        self.words.get(index).copied().unwrap_or(0)
    }

    pub fn set(&mut self, index: usize, word: u32) {
        if let Some(old) = self.words.get_mut(index) {
            *old = word;
        }
    }

    /// Sets a word that is refused at this place.
    pub fn spoil(&mut self, index: usize, word: u32, place: usize) -> Option<usize> {
        self.set(index, word);
        Some(place)
    }

    /// Has word 3 say how many words there are.
    pub fn set_count(&mut self) {
        self.set(rules::COUNT_WORD, self.words.len() as u32);
    }

    pub fn has_room(&self) -> bool {
        self.words.len() < rules::MAX_WORDS
    }

    /// Makes a part longer by one word, and moves what stands behind it as is due.
    pub fn grow(&mut self, pair: usize, word: u32) {
        let end = self.parts[pair].end;
        self.words.insert(end.min(self.words.len()), word);
        self.move_end(pair, 1);
    }

    /// Makes a part that isn't empty shorter by its last word, and moves what stands behind it as
    /// is due.
    pub fn shrink(&mut self, pair: usize) {
        let last = self.parts[pair].end - 1;
        if last < self.words.len() {
            self.words.remove(last);
        }
        self.move_end(pair, -1);
    }

    fn move_end(&mut self, pair: usize, change: isize) {
        let moved = |index: usize| index.wrapping_add_signed(change);
        self.parts[pair].end = moved(self.parts[pair].end);
        self.add(length_word(pair), change);
        for later in pair + 1..self.parts.len() {
            let part = &self.parts[later];
            self.parts[later] = moved(part.start)..moved(part.end);
            self.add(pair_word(later), change);
        }
        self.add(rules::COUNT_WORD, change);
    }

    fn add(&mut self, index: usize, change: isize) {
        let word = self.get(index).wrapping_add_signed(change as i32);
        self.set(index, word);
    }

    /// The word indices of the goal, of each action's preconditions and of each one's effects.
    fn groups(&self) -> Vec<Range<usize>> {
        let mut groups = vec![self.parts[rules::GOAL_PAIR].clone()];
        let parts = self.parts[rules::FIRST_ACTION_PAIR..].iter();
        for (part, count) in parts.zip(&self.preconditions) {
            let facts = (part.start + rules::ACTION_HEAD).min(part.end);
            let effects = (facts + count).min(part.end);
            groups.extend([facts..effects, effects..part.end]);
        }
        groups
    }

    /// The word index of a fact that has at least `before` facts before it in its group.
    pub fn random_fact(&self, random: &mut Random, before: usize) -> Option<usize> {
        let mut groups = self.groups();
        groups.retain(|group| group.len() > before);
        let group = &groups[random.index_in(&groups)?];
        Some(random.size(group.start + before..=group.end - 1))
    }

    /// The pair of an action.
    pub fn random_action(&self, random: &mut Random) -> Option<usize> {
        let action = random.index_in(&self.preconditions)?;
        Some(rules::FIRST_ACTION_PAIR + action)
    }

    pub fn random_pair(&self, random: &mut Random) -> usize {
        random.index(self.parts.len())
    }

    /// The word index of a variable's domain size.
    pub fn size_word(&self, variable: usize) -> usize {
        self.parts[rules::SIZES_PAIR].start + variable
    }

    /// The domain size of the variable of the fact at word `index`.
    pub fn domain_of_fact(&self, index: usize) -> u32 {
        self.get(self.size_word(self.get(index) as usize / rules::FACT_BASE))
    }
}
