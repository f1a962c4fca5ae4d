//! Faults of the pairs and of the parts that they tell of.

use super::{other_word, word_above, Put};
use crate::makers::length_word;
use crate::rules::{pair_word, ACTIONS_WORD, ACTION_HEAD, FIRST_ACTION_PAIR, HEADER};
use crate::rules::{MAX_ACTIONS, MAX_VARIABLES, SIZES_PAIR, START_PAIR, VARIABLES_WORD};

pub const FAULTS: &[(&str, Put)] = &[
    // Either more actions than there are words for, or words cut off within the pairs or right
    // behind them.
    ("sheet: pairs that don't fit", |sheet, random| {
        let length = sheet.words.len();
        let fewest = length.saturating_sub(pair_word(FIRST_ACTION_PAIR)) / 2 + 1;
        if fewest <= MAX_ACTIONS && random.once_in(2) {
            let most = random.pick(&[fewest, MAX_ACTIONS]);
            let actions = random.size(fewest..=most);
            sheet.set(ACTIONS_WORD, actions as u32);
        } else {
            let kept = random.size(HEADER..=sheet.pairs_end());
            sheet.words.truncate(kept);
            sheet.set_count();
        }
        Some(0)
    }),
    // Both numbers stay in their ranges, and pair 0 is the first that doesn't agree with them.
    ("sheet: V or A of another sheet", |sheet, random| {
        let (index, own, range) = match random.index(2) {
            0 => (VARIABLES_WORD, sheet.variables(), 1..=MAX_VARIABLES),
            _ => (ACTIONS_WORD, sheet.actions(), 0..=MAX_ACTIONS),
        };
        let choices = [own.wrapping_sub(1), own + 1, random.size(range.clone())];
        let other = random.pick(&choices);
        (other != own && range.contains(&other)).then_some(())?;
        sheet.spoil(index, other as u32, 0)
    }),
    ("sheet: offset not due", |sheet, random| {
        let pair = sheet.random_pair(random);
        let offset = other_word(random, sheet.parts[pair].start as u32);
        sheet.spoil(pair_word(pair), offset, pair)
    }),
    // The part still ends within the sheet; the next one doesn't begin where it ends.
    ("sheet: part before too long", |sheet, random| {
        let next = sheet.random_action(random)?;
        let part = sheet.parts[next - 1].clone();
        let most = sheet.words.len().saturating_sub(part.end).max(1);
        let length = part.len() + random.pick(&[1, most]);
        sheet.spoil(length_word(next - 1), length as u32, next)
    }),
    ("sheet: part past N", |sheet, random| {
        let pair = sheet.random_pair(random);
        let most = sheet.words.len().saturating_sub(sheet.parts[pair].start);
        let length = word_above(random, most);
        sheet.spoil(length_word(pair), length, pair)
    }),
    // The end is 2^32 and a little more. The next offset is that little: a sum of 32 bits would find
    // both in order.
    ("sheet: part past 2^32", |sheet, random| {
        let pair = sheet.random_pair(random);
        let start = sheet.parts[pair].start as u32;
        let excess = random.within(0..=start - 1);
        let end = random.pick(&[0, excess, start - 1]);
        if pair < sheet.last_pair() {
            sheet.set(pair_word(pair + 1), end);
        }
        sheet.spoil(length_word(pair), end.wrapping_sub(start), pair)
    }),
    ("sheet: last part before N", |sheet, random| {
        let last = sheet.last_pair();
        let length = sheet.parts[last].len() as u32;
        if random.once_in(2) && sheet.has_room() {
            sheet.words.push(random.word());
            sheet.set_count();
        } else {
            sheet.set(length_word(last), length.checked_sub(1)?);
        }
        Some(last)
    }),
    ("sheet: sizes or start not V long", |sheet, random| {
        let pair = random.pick(&[SIZES_PAIR, START_PAIR]);
        if random.once_in(2) && sheet.has_room() {
            sheet.grow(pair, 1);
        } else {
            (!sheet.parts[pair].is_empty()).then(|| sheet.shrink(pair))?;
        }
        Some(pair)
    }),
    ("sheet: action under 2 words", |sheet, random| {
        let pair = sheet.random_action(random)?;
        let length = random.index(ACTION_HEAD);
        while sheet.parts[pair].len() > length {
            sheet.shrink(pair);
        }
        Some(pair)
    }),
    ("sheet: p over length - 2", |sheet, random| {
        let pair = sheet.random_action(random)?;
        let part = sheet.parts[pair].clone();
        let preconditions = word_above(random, part.len().saturating_sub(ACTION_HEAD));
        sheet.spoil(part.start + 1, preconditions, pair)
    }),
];
