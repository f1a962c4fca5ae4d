//! Causes 1 to 7: what is wrong with a sheet.

use super::lists::of_list;
use super::out_of_table;
use crate::failure::Failure;
use crate::input::{Lodged, Origin, Part};
use crate::job::Job;
use crate::limits::{
    MOST_ACTIONS, MOST_PRICE, MOST_VALUES, MOST_VARIABLES, MOST_WORDS, WORD_BYTES,
};
use crate::reply::Refusal;
use crate::sheet::{self, Extent, EDITION, FIRST_ACTION, HEADER};

/// The refusal of words in the program's form: that they are none, or that of their sheet where the
/// list is too long to be read.
pub fn of_form(refusal: Refusal, bytes: &[u8], origin: Origin) -> Failure {
    let words = bytes
        .chunks_exact(WORD_BYTES)
        .map(|it| u32::from_le_bytes([it[0], it[1], it[2], it[3]]));
    let words: Vec<u32> = words.collect();
    if refusal.number == 1 {
        let message = format!("{}: {}", origin.file, form(&words, bytes.len()));
        return Failure::refused(refusal, message);
    }
    let length = sheet::length(&words);
    let Some(sheet) = words.get(..length) else {
        return out_of_table(refusal);
    };
    let lodged = Lodged {
        sheet: sheet.to_vec(),
        job: Job::default(),
        origin,
    };
    match refusal.number {
        8 => lodged.too_long(refusal, sheet::word(&words, length) as usize),
        _ => of_list(refusal, &lodged),
    }
}

/// Why words are no sheet with its list.
fn form(words: &[u32], bytes: usize) -> String {
    let (count, length) = (words.len(), sheet::length(words));
    if bytes % WORD_BYTES != 0 {
        return format!("the last word breaks off: {bytes} bytes are not a whole number of words");
    }
    if count < HEADER {
        return format!("it has {count} words, and a sheet has at least {HEADER}");
    }
    if !(HEADER..=MOST_WORDS).contains(&length) {
        return format!(
            "word 3 says that the sheet has {length} words; a sheet has {HEADER} to {MOST_WORDS}"
        );
    }
    if count <= length {
        return format!("word 3 says that the sheet has {length} words, and the list's length behind it; there are {count}");
    }
    let moves = words[length] as usize;
    let behind = count - length - 1;
    format!("the list is to have {moves} moves (word {length}), and {behind} words follow")
}

impl Lodged {
    /// Why the library does not accept the sheet, and where that stands.
    pub fn wrong_sheet(&self, refusal: Refusal) -> Failure {
        let (place, actions) = (refusal.place as usize, sheet::actions(&self.sheet));
        let message = match refusal.number {
            1 => self.at(Part::Whole, 0, &self.too_large()),
            2 => self.at(
                Part::Whole,
                0,
                &format!(
                    "its edition is {}, and {EDITION} is read",
                    sheet::word(&self.sheet, 0)
                ),
            ),
            3 => self.too_many(),
            4 if place < FIRST_ACTION + actions => self.wrong_pair(place),
            5 if place < sheet::variables(&self.sheet) => self.wrong_variable(place),
            6 if place < self.sheet.len() => self.wrong_fact(place),
            7 if place < actions => self.wrong_price(place),
            _ => return out_of_table(refusal),
        };
        Failure::refused(refusal, message)
    }

    fn too_large(&self) -> String {
        let count = self.sheet.len();
        format!("it is too large: its sheet has {count} words, and a sheet has {HEADER} to {MOST_WORDS}")
    }

    fn too_many(&self) -> String {
        let (variables, actions) = (sheet::variables(&self.sheet), sheet::actions(&self.sheet));
        if (1..=MOST_VARIABLES).contains(&variables) {
            let message = format!("it has {actions} actions, and {MOST_ACTIONS} at most are read");
            return self.at(Part::Action(MOST_ACTIONS), 2, &message);
        }
        let message = format!("it has {variables} variables; a job has 1 to {MOST_VARIABLES}");
        self.at(Part::Variable(MOST_VARIABLES), 1, &message)
    }

    fn wrong_pair(&self, pair: usize) -> String {
        let (sheet, word) = (&self.sheet, HEADER + 2 * pair);
        let (first, length) = (sheet::first_part(sheet), sheet::length(sheet));
        if first > length {
            let message = format!("its pairs take {first} words, and it has {length}");
            return self.at(Part::Whole, word, &message);
        }
        let message = format!(
            "pair {pair}, of {}: {}",
            self.part_name(pair),
            self.why_wrong(pair)
        );
        self.at(Part::Word, word, &message)
    }

    fn part_name(&self, pair: usize) -> String {
        match pair {
            0 => "the domain sizes".to_string(),
            1 => "the starting values".to_string(),
            2 => "the goal".to_string(),
            _ => format!("action {}", self.action(pair - FIRST_ACTION)),
        }
    }

    /// What the words of a pair should be and are not.
    fn why_wrong(&self, pair: usize) -> String {
        let sheet = &self.sheet;
        let Extent { at, length } = sheet::part(sheet, pair);
        let due = match pair {
            0 => sheet::first_part(sheet),
            _ => {
                let before = sheet::part(sheet, pair - 1);
                before.at + before.length
            }
        };
        let (end, total, variables) = (at + length, sheet::length(sheet), sheet::variables(sheet));
        let is_last = pair + 1 == FIRST_ACTION + sheet::actions(sheet);
        let needs = sheet::word(sheet, at + 1);
        if at != due {
            format!("its part begins at word {due}, and the pair says {at}")
        } else if end > total {
            format!("its part ends at word {end}, and the sheet at word {total}")
        } else if is_last && end < total {
            format!("the last part ends at word {end}, and the sheet at word {total}")
        } else if pair < 2 {
            format!("it has {length} words for {variables} variables")
        } else if length < 2 {
            format!("an action has a price and a number of needs at least, and this part {length} words")
        } else {
            format!(
                "it is to have {needs} needs, and has {} facts in all",
                length - 2
            )
        }
    }

    fn wrong_variable(&self, v: usize) -> String {
        let [size, start] = [0, 1].map(|pair| sheet::part(&self.sheet, pair).at + v);
        let (values, value) = (
            sheet::word(&self.sheet, size),
            sheet::word(&self.sheet, start),
        );
        let name = self.variable(v);
        let (word, message) = if (1..=MOST_VALUES).contains(&values) {
            (
                start,
                format!(
                    "{name} starts at value {value}, and its values are 0 to {}",
                    values - 1
                ),
            )
        } else {
            (
                size,
                format!("{name} has {values} values; a variable has 1 to {MOST_VALUES}"),
            )
        };
        self.at(Part::Variable(v), word, &message)
    }

    fn wrong_fact(&self, word: usize) -> String {
        let fact = sheet::fact(self.sheet[word]);
        let (group, part) = self.group_of(word);
        let size = sheet::word(&self.sheet, sheet::part(&self.sheet, 0).at + fact.variable);
        let (number, name) = (self.sheet[word], self.variable(fact.variable));
        let why = if fact.variable >= sheet::variables(&self.sheet) {
            format!("there is no variable {}", fact.variable)
        } else if fact.value >= size as usize {
            format!(
                "{name} has no value {}: its values are 0 to {}",
                fact.value,
                size - 1
            )
        } else {
            format!("{name} does not come behind the variable of the fact before it")
        };
        self.at(
            part,
            word,
            &format!("word {word} is {number}, a fact of {group}: {why}"),
        )
    }

    /// The group of facts that a word is in.
    fn group_of(&self, word: usize) -> (String, Part) {
        let sheet = &self.sheet;
        let holds = |pair: &usize| {
            let Extent { at, length } = sheet::part(sheet, *pair);
            (at..at + length).contains(&word)
        };
        let pairs = FIRST_ACTION..FIRST_ACTION + sheet::actions(sheet);
        let Some(pair) = pairs.into_iter().find(holds) else {
            return ("the goal".to_string(), Part::Goal);
        };
        let (a, at) = (pair - FIRST_ACTION, sheet::part(sheet, pair).at);
        let is_need = word < at + 2 + sheet::word(sheet, at + 1) as usize;
        let does = if is_need { "needs" } else { "does" };
        (format!("what {} {does}", self.action(a)), Part::Action(a))
    }

    fn wrong_price(&self, a: usize) -> String {
        let word = sheet::part(&self.sheet, FIRST_ACTION + a).at;
        let message = format!(
            "{} costs {}; a price is at most {MOST_PRICE}",
            self.action(a),
            sheet::word(&self.sheet, word)
        );
        self.at(Part::Action(a), word, &message)
    }
}
