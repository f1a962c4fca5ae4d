//! A text line by line, with what each line holds.

use super::{names, Change, Listing, Number, Operator, Pair, Variable};
use std::ops::Range;

// What keywords call the part that they begin or end.
const VERSION: &str = "version";
const METRIC: &str = "metric";
const VARIABLE: &str = "variable";
const MUTEX_GROUP: &str = "mutex_group";
const STATE: &str = "state";
const GOAL: &str = "goal";
const OPERATOR: &str = "operator";
const RULE: &str = "rule";

pub const PARTS: [&str; 8] = [
    VERSION,
    METRIC,
    VARIABLE,
    MUTEX_GROUP,
    STATE,
    GOAL,
    OPERATOR,
    RULE,
];

/// How keywords begin.
pub const BEGIN: &str = "begin_";
pub const END: &str = "end_";

const THE_VERSION: Number = 3;
const LINE_END: u8 = b'\n';

/// What a line holds, as far as others ask for it.
#[derive(Clone, Copy, PartialEq, Eq)]
pub enum Holds {
    Keyword,
    Name,
    Layer,
    Effect,
    Axioms,
    /// Numbers of another meaning.
    Numbers,
}

pub struct Text {
    pub bytes: Vec<u8>,
    /// What each line holds, and where it begins.
    lines: Vec<(Holds, usize)>,
}

impl Text {
    pub fn of(listing: &Listing, name: names::Put) -> Self {
        let text = Text {
            bytes: Vec::new(),
            lines: Vec::new(),
        };
        let mut writer = Writer { text, name };
        writer.put(listing);
        writer.text
    }

    /// How many lines there are. They are told by their indices, from 0.
    pub fn lines(&self) -> usize {
        self.lines.len()
    }

    pub fn is_name(&self, line: usize) -> bool {
        self.lines[line].0 == Holds::Name
    }

    /// The bytes of a line with its end.
    pub fn range(&self, line: usize) -> Range<usize> {
        let next = self.lines.get(line + 1);
        self.lines[line].1..next.map_or(self.bytes.len(), |it| it.1)
    }

    /// The bytes of a line without its end.
    pub fn content(&self, line: usize) -> Range<usize> {
        let Range { start, end } = self.range(line);
        start..end - 1
    }

    pub fn line(&self, line: usize) -> &[u8] {
        &self.bytes[self.content(line)]
    }

    /// The index of the line that is the nth, from 0, to hold this.
    pub fn nth(&self, holds: Holds, nth: usize) -> Option<usize> {
        let lines = 0..self.lines();
        lines.filter(|&line| self.lines[line].0 == holds).nth(nth)
    }

    /// The bytes with others in place of these.
    pub fn replaced(&self, range: Range<usize>, by: &[u8]) -> Vec<u8> {
        [&self.bytes[..range.start], by, &self.bytes[range.end..]].concat()
    }
}

/// Writes what a listing says, in the order of the text.
struct Writer<'a> {
    text: Text,
    name: names::Put<'a>,
}

impl Writer<'_> {
    fn put(&mut self, listing: &Listing) {
        self.part(VERSION, |it| it.numbers(&[THE_VERSION]));
        let metric = Number::from(listing.has_costs);
        self.part(METRIC, |it| it.numbers(&[metric]));
        self.each(Holds::Numbers, &listing.variables, Self::variable);
        self.each(Holds::Numbers, &listing.mutex_groups, |it, pairs| {
            it.part(MUTEX_GROUP, |it| it.pairs(pairs))
        });
        self.part(STATE, |it| {
            for variable in &listing.variables {
                it.numbers(&[variable.start]);
            }
        });
        self.part(GOAL, |it| it.pairs(&listing.goal));
        self.each(Holds::Numbers, &listing.operators, Self::operator);
        self.each(Holds::Axioms, &listing.axioms, Self::axiom);
    }

    fn begin(&mut self, holds: Holds) {
        self.text.lines.push((holds, self.text.bytes.len()));
    }

    fn end(&mut self) {
        self.text.bytes.push(LINE_END);
    }

    fn keyword(&mut self, border: &str, part: &str) {
        self.begin(Holds::Keyword);
        self.text.bytes.extend_from_slice(border.as_bytes());
        self.text.bytes.extend_from_slice(part.as_bytes());
        self.end();
    }

    fn name(&mut self) {
        self.begin(Holds::Name);
        (self.name)(&mut self.text.bytes);
        self.end();
    }

    /// A line of numbers, of which nothing is -1.
    fn line(&mut self, holds: Holds, numbers: impl IntoIterator<Item = Option<Number>>) {
        self.begin(holds);
        for (index, number) in numbers.into_iter().enumerate() {
            if index > 0 {
                self.text.bytes.push(b' ');
            }
            put_number(&mut self.text.bytes, number);
        }
        self.end();
    }

    fn numbers(&mut self, numbers: &[Number]) {
        self.line(Holds::Numbers, numbers.iter().copied().map(Some));
    }

    /// What stands between the keywords of a part.
    fn part(&mut self, part: &str, put: impl FnOnce(&mut Self)) {
        self.keyword(BEGIN, part);
        put(self);
        self.keyword(END, part);
    }

    /// How many there are, and each of them.
    fn each<T>(&mut self, holds: Holds, all: &[T], put: impl Fn(&mut Self, &T)) {
        self.line(holds, [Some(all.len() as Number)]);
        for it in all {
            put(self, it);
        }
    }

    fn pairs(&mut self, pairs: &[Pair]) {
        self.each(Holds::Numbers, pairs, |it, pair| it.numbers(pair));
    }

    fn variable(&mut self, variable: &Variable) {
        self.part(VARIABLE, |it| {
            it.name();
            it.line(Holds::Layer, [variable.layer]);
            it.numbers(&[variable.range as Number]);
            for _ in 0..variable.range {
                it.name();
            }
        });
    }

    fn operator(&mut self, operator: &Operator) {
        self.part(OPERATOR, |it| {
            it.name();
            it.pairs(&operator.prevail);
            it.each(Holds::Numbers, &operator.effects, Self::effect);
            it.numbers(&[operator.cost]);
        });
    }

    fn effect(&mut self, effect: &Change) {
        let conditions = effect.conditions.iter().flatten().copied().map(Some);
        let count = Some(effect.conditions.len() as Number);
        let numbers = [count].into_iter().chain(conditions);
        self.line(Holds::Effect, numbers.chain(values(effect)));
    }

    fn axiom(&mut self, axiom: &Change) {
        self.part(RULE, |it| {
            it.pairs(&axiom.conditions);
            it.line(Holds::Numbers, values(axiom));
        });
    }
}

/// The variable, its old value and the new one.
fn values(change: &Change) -> [Option<Number>; 3] {
    [Some(change.variable), change.old, Some(change.new)]
}

/// Most numbers have one digit, and those that don't fit in 64 bits are seldom: both matter to how
/// long the texts of a run take.
fn put_number(bytes: &mut Vec<u8>, number: Option<Number>) {
    match number.map(u64::try_from) {
        None => bytes.extend_from_slice(b"-1"),
        Some(Ok(digit @ 0..=9)) => bytes.push(b'0' + digit as u8),
        Some(Ok(number)) => bytes.extend_from_slice(number.to_string().as_bytes()),
        Some(Err(_)) => bytes.extend(number.iter().flat_map(|it| it.to_string().into_bytes())),
    }
}
