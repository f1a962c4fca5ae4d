//! A sheet in the making. It may turn out not to fit long before the form of the text is known to
//! be in order, so that is only noted, and told at the end.

use crate::rules::{
    sheet_of, FACT_BASE, FIRST_ACTION_PAIR, MAX_ACTIONS, MAX_ACTION_COST, MAX_DOMAIN,
    MAX_VARIABLES, MAX_WORDS,
};

pub struct Draft {
    /// Whether all that was put in is within the limits and rules of a sheet.
    fits: bool,
    /// The domain sizes.
    sizes: Vec<u32>,
    /// The parts of the sheet, one behind the other, and the length of each.
    parts: Vec<u32>,
    lengths: Vec<usize>,
    /// Where the part in the making begins.
    start: usize,
}

impl Draft {
    pub fn new() -> Self {
        Draft {
            fits: true,
            sizes: Vec::with_capacity(MAX_VARIABLES),
            parts: Vec::with_capacity(MAX_WORDS),
            lengths: Vec::with_capacity(FIRST_ACTION_PAIR + MAX_ACTIONS),
            start: 0,
        }
    }

    pub fn variables(&self) -> usize {
        self.sizes.len()
    }

    pub fn add_variable(&mut self, size: u32) {
        self.fits &= (1..=MAX_DOMAIN).contains(&(size as usize));
        self.sizes.push(size);
        self.parts.push(size);
    }

    pub fn add_start(&mut self, variable: usize, value: u32) {
        self.fits &= value < self.sizes[variable];
        self.parts.push(value);
    }

    pub fn end_part(&mut self) {
        self.lengths.push(self.parts.len() - self.start);
        self.start = self.parts.len();
    }

    /// The word of a fact. An unknown value is seen here: its word would read as another fact.
    pub fn fact(&mut self, variable: u32, value: u32) -> u32 {
        match self.sizes.get(variable as usize) {
            Some(&size) if value < size => {}
            _ => self.fits = false,
        }
        variable.wrapping_mul(FACT_BASE as u32).wrapping_add(value)
    }

    /// Adds the facts in rising order; no two may have one variable.
    pub fn add_group(&mut self, facts: &mut [u32]) {
        let variable = |fact| fact / FACT_BASE as u32;
        facts.sort_unstable();
        let mut neighbours = facts.windows(2);
        self.fits &= neighbours.all(|two| variable(two[0]) < variable(two[1]));
        self.parts.extend_from_slice(facts);
    }

    pub fn add_action(&mut self, cost: u32, preconditions: &mut [u32], effects: &mut [u32]) {
        self.fits &= cost as usize <= MAX_ACTION_COST;
        self.parts.extend([cost, preconditions.len() as u32]);
        self.add_group(preconditions);
        self.add_group(effects);
        self.end_part();
    }

    /// The words of the sheet, if it fits.
    pub fn into_words(self) -> Option<Vec<u32>> {
        let actions = self.lengths.len() - FIRST_ACTION_PAIR;
        let has_variables = (1..=MAX_VARIABLES).contains(&self.variables());
        if !(self.fits && has_variables && actions <= MAX_ACTIONS) {
            return None;
        }
        let words = sheet_of(self.variables(), &self.lengths, &self.parts);
        (words.len() <= MAX_WORDS).then_some(words)
    }
}
