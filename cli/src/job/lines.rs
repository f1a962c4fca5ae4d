//! The lines of a job: headers with a colon, and the items behind each of them.

use super::tokens::{tokens, Token, Word};
use crate::fault::{Fault, Place};
use crate::nearest::hint;

/// What a header begins with.
#[derive(Clone, Copy, Debug, PartialEq, Eq)]
pub enum Keyword {
    Title,
    Variable,
    Start,
    Goal,
    Action,
    Needs,
    Then,
    List,
}

use Keyword::*;

/// Each keyword as it is written.
const KEYWORDS: [(&str, Keyword); 8] = [
    ("title", Title),
    ("variable", Variable),
    ("start", Start),
    ("goal", Goal),
    ("action", Action),
    ("needs", Needs),
    ("then", Then),
    ("list", List),
];

impl Keyword {
    pub fn text(self) -> &'static str {
        let found = KEYWORDS.iter().find(|(_, it)| *it == self);
        found.map_or("", |(text, _)| text)
    }

    pub fn of(text: &str) -> Option<Keyword> {
        let text = text.to_lowercase();
        let found = KEYWORDS.iter().find(|(it, _)| *it == text);
        found.map(|(_, keyword)| *keyword)
    }

    /// Whether a name stands between the keyword and the colon.
    fn takes_name(self) -> bool {
        matches!(self, Variable | Action)
    }
}

/// The words between two commas or line ends, at least one.
pub type Item = Vec<Word>;

/// A header and what stands behind it.
#[derive(Debug)]
pub struct Entry {
    pub keyword: Keyword,
    /// The words between the keyword and the colon.
    pub name: Vec<Word>,
    pub place: Place,
    pub items: Vec<Item>,
    /// What stands behind the colon as it is written: a title is more than words.
    pub rest: String,
}

/// All entries of a text, and what is wrong with its lines.
pub fn entries(text: &str) -> (Vec<Entry>, Vec<Fault>) {
    let (mut entries, mut faults) = (Vec::new(), Vec::new());
    for (index, line) in text.lines().enumerate() {
        if let Err(fault) = read_line(index + 1, line, &mut entries) {
            faults.push(fault);
        }
    }
    (entries, faults)
}

/// A line begins an entry where it has a colon, and otherwise has items of the entry before it.
fn read_line(number: usize, line: &str, entries: &mut Vec<Entry>) -> Result<(), Fault> {
    if let Some(title) = title(number, line) {
        entries.push(title);
        return Ok(());
    }
    let tokens = tokens(number, line)?;
    let colon = tokens.iter().position(|it| matches!(it, Token::Colon(_)));
    let Some(colon) = colon else {
        return continue_entry(tokens, entries);
    };
    let mut before = tokens;
    let mut behind = before.split_off(colon);
    let colon = behind.remove(0);
    // The entry stands even where its items are wrong, so that what follows is not blamed.
    entries.push(header(before, colon.place())?);
    continue_entry(behind, entries)
}

/// A title is the rest of its line, with whatever is in it.
fn title(number: usize, line: &str) -> Option<Entry> {
    let (keyword, rest) = line.split_once(':')?;
    if Keyword::of(keyword.trim()) != Some(Title) {
        return None;
    }
    let indent = keyword.len() - keyword.trim_start().len();
    Some(Entry {
        keyword: Title,
        name: Vec::new(),
        place: Place {
            line: number,
            column: indent + 1,
        },
        items: Vec::new(),
        rest: rest.trim().to_string(),
    })
}

fn continue_entry(tokens: Vec<Token>, entries: &mut [Entry]) -> Result<(), Fault> {
    let Some(first) = tokens.first() else {
        return Ok(());
    };
    let Some(entry) = entries.last_mut().filter(|it| it.keyword != Title) else {
        let message = format!("a header is expected here: {}", listed());
        return Err(Fault::at(first.place(), message));
    };
    let Place { line, .. } = first.place();
    if let (true, Some(keyword)) = (line > entry.place.line, lost_header(entry, first)) {
        let message = format!(
            "if this is a header, its colon is missing; a name that begins with {:?} goes in quotes here",
            keyword.text()
        );
        return Err(Fault::at(first.place(), message));
    }
    entry.items.extend(items(tokens)?);
    Ok(())
}

/// The keyword that a line begins with, where it would silently be taken for a value or a price.
fn lost_header(entry: &Entry, first: &Token) -> Option<Keyword> {
    match first {
        Token::Word(word) if !word.is_quoted && matches!(entry.keyword, Variable | Action) => {
            Keyword::of(&word.text)
        }
        _ => None,
    }
}

/// The headers that there are, as they are written.
fn listed() -> String {
    let texts = KEYWORDS
        .iter()
        .map(|(text, keyword)| match keyword.takes_name() {
            true => format!("{text} NAME:"),
            false => format!("{text}:"),
        });
    let texts: Vec<String> = texts.collect();
    texts.join(" ")
}

fn header(tokens: Vec<Token>, colon: Place) -> Result<Entry, Fault> {
    let mut words = words(tokens)?.into_iter();
    let Some(first) = words.next() else {
        let message = format!("a header is expected before the colon: {}", listed());
        return Err(Fault::at(colon, message));
    };
    let Some(keyword) = Keyword::of(&first.text).filter(|_| !first.is_quoted) else {
        return Err(Fault::at(first.place, unknown_header(&first.text)));
    };
    let name: Vec<Word> = words.collect();
    match (keyword.takes_name(), name.first()) {
        (true, None) => {
            let message = format!("the name is missing: {} NAME:", keyword.text());
            Err(Fault::at(first.place, message))
        }
        (false, Some(word)) => {
            let message = format!("a colon is expected behind {:?}", keyword.text());
            Err(Fault::at(word.place, message))
        }
        _ => Ok(Entry {
            keyword,
            name,
            place: first.place,
            items: Vec::new(),
            rest: String::new(),
        }),
    }
}

fn unknown_header(text: &str) -> String {
    if text == super::PRICE {
        return "the price stands behind the action's name: action NAME: price 5".to_string();
    }
    let hint = hint(text, KEYWORDS.iter().map(|(text, _)| *text));
    format!(
        "{text:?} is no header (a name with a colon goes in quotes; the headers are {}){hint}",
        listed()
    )
}

/// The words in front of a colon.
fn words(tokens: Vec<Token>) -> Result<Vec<Word>, Fault> {
    let words = tokens.into_iter().map(|it| match it {
        Token::Word(word) => Ok(word),
        Token::Comma(place) | Token::Colon(place) => Err(Fault::at(
            place,
            "a comma is not expected before the colon of a header",
        )),
    });
    words.collect()
}

/// The items of a line. A comma may end it, and two commas have a name between them.
fn items(tokens: Vec<Token>) -> Result<Vec<Item>, Fault> {
    let (mut items, mut item) = (Vec::new(), Vec::new());
    for token in tokens {
        match token {
            Token::Word(word) => item.push(word),
            Token::Comma(place) if item.is_empty() => {
                return Err(Fault::at(place, "a name is expected before this comma"));
            }
            Token::Comma(_) => items.push(std::mem::take(&mut item)),
            Token::Colon(place) => {
                let message =
                    "a second colon in one line: a header begins a line of its own, and a \
                               name with a colon goes in quotes";
                return Err(Fault::at(place, message));
            }
        }
    }
    if !item.is_empty() {
        items.push(item);
    }
    Ok(items)
}
