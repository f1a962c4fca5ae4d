//! Names and facts in the items of a job.

use super::lines::{Entry, Item, Keyword};
use super::tokens::Word;
use super::{IS, NOTHING};
use crate::fault::{Fault, Place};
use crate::nearest::hint;
use crate::task::{Fact, Variable};
use std::collections::hash_map::Entry as Slot;
use std::collections::HashMap;

/// A name, and where it stands.
#[derive(Clone, Debug)]
pub struct Name {
    pub text: String,
    pub place: Place,
}

/// The name that words are: one in quotes as it is, others with a space between them.
pub fn name(words: &[Word]) -> Result<Name, Fault> {
    let place = words[0].place;
    if let Some(quoted) = words.iter().find(|it| it.is_quoted && words.len() > 1) {
        let message = "a name in quotes stands alone: all of the name goes between them";
        return Err(Fault::at(quoted.place, message));
    }
    let texts: Vec<&str> = words.iter().map(|it| it.text.as_str()).collect();
    let text = texts.join(" ");
    Ok(Name { text, place })
}

/// Names, each of which is to stand once, and their indices.
#[derive(Default)]
pub struct Index {
    indices: HashMap<String, usize>,
    names: Vec<Name>,
}

impl Index {
    /// Takes one more name; `what` says what it is the name of.
    pub fn add(&mut self, name: Name, what: &str) -> Result<(), Fault> {
        match self.indices.entry(name.text.clone()) {
            Slot::Occupied(first) => {
                let first = self.names[*first.get()].place.line;
                let message = format!(
                    "a second {what} {:?} (the first is on line {first})",
                    name.text
                );
                Err(Fault::at(name.place, message))
            }
            Slot::Vacant(slot) => {
                slot.insert(self.names.len());
                self.names.push(name);
                Ok(())
            }
        }
    }

    /// The index of a name; `lacks` says in front of it what is not there.
    pub fn find(&self, name: &Name, lacks: &str) -> Result<usize, Fault> {
        self.indices.get(&name.text).copied().ok_or_else(|| {
            let first = name.text.split(' ').next().and_then(Keyword::of);
            let hint = match first {
                Some(_) => "; if this is a header, its colon is missing".to_string(),
                None => hint(&name.text, self.texts()),
            };
            Fault::at(name.place, format!("{lacks} {:?}{hint}", name.text))
        })
    }

    pub fn texts(&self) -> impl Iterator<Item = &str> {
        self.names.iter().map(|it| it.text.as_str())
    }
}

/// The items of an entry, none where it has the word for that. What is expected is said where it is
/// empty.
pub fn items<'a>(entry: &'a Entry, expected: &str) -> Result<&'a [Item], Fault> {
    let nothing = entry
        .items
        .iter()
        .find(|it| it.len() == 1 && it[0].is(NOTHING));
    match (nothing, entry.items.len()) {
        (Some(_), 1) => Ok(&[]),
        (Some(item), _) => {
            let message =
                format!("the word {NOTHING} stands alone; a thing of this name goes in quotes");
            Err(Fault::at(item[0].place, message))
        }
        (None, 0) => {
            let header = entry.keyword.text();
            let message =
                format!("{expected} expected behind \"{header}:\", or the word {NOTHING}");
            Err(Fault::at(entry.place, message))
        }
        (None, _) => Ok(&entry.items),
    }
}

/// The facts of an entry, in the order of their variables.
pub fn facts(entry: &Entry, variables: &[Variable], index: &Index) -> (Vec<Fact>, Vec<Fault>) {
    let (mut facts, mut faults) = (Vec::new(), Vec::new());
    match items(entry, "facts are") {
        Ok(items) => {
            for item in items {
                match fact(item, variables, index) {
                    Ok(fact) => facts.push((fact, item[0].place)),
                    Err(fault) => faults.push(fault),
                }
            }
        }
        Err(fault) => faults.push(fault),
    }
    facts.sort();
    faults.extend(facts.windows(2).filter_map(|pair| twice(pair, variables)));
    (facts.into_iter().map(|(fact, _)| fact).collect(), faults)
}

/// What is wrong where two facts have one variable: the later of the two stands too much.
fn twice(pair: &[(Fact, Place)], variables: &[Variable]) -> Option<Fault> {
    let [(a, first), (b, second)] = pair else {
        return None;
    };
    let is_twice = a.variable == b.variable;
    let (first, second) = (first.min(second), first.max(second));
    is_twice.then(|| {
        let name = &variables[a.variable].name;
        let message = format!("{name:?} stands here twice (first on line {})", first.line);
        Fault::at(*second, message)
    })
}

fn fact(item: &Item, variables: &[Variable], index: &Index) -> Result<Fact, Fault> {
    let mut parts = item.split(|it| it.is(IS));
    let (Some(left), Some(right)) = (parts.next(), parts.next()) else {
        let message = format!("a fact is expected, as in: gate {IS} open");
        return Err(Fault::at(item[0].place, message));
    };
    if parts.next().is_some() {
        let message =
            format!("the word {IS} stands twice here: a comma goes between two facts, and a name that has the \
                 word in quotes");
        return Err(Fault::at(item[0].place, message));
    }
    if left.is_empty() || right.is_empty() {
        let message = format!("a variable and a value are expected around {IS:?}");
        return Err(Fault::at(item[0].place, message));
    }
    let variable = index.find(&name(left)?, "there is no variable")?;
    let value = value(&name(right)?, &variables[variable])?;
    Ok(Fact { variable, value })
}

fn value(name: &Name, variable: &Variable) -> Result<usize, Fault> {
    let found = variable.values.iter().position(|it| *it == name.text);
    found.ok_or_else(|| {
        let values = variable.values.iter().map(String::as_str);
        let hint = hint(&name.text, values.clone());
        let listed: Vec<&str> = values.take(MOST_LISTED).collect();
        let more = if variable.values.len() > MOST_LISTED {
            ", …"
        } else {
            ""
        };
        let listed = listed.join(", ");
        let message = format!(
            "{:?} has no value {:?} (it is one of {listed}{more}){hint}",
            variable.name, name.text
        );
        Fault::at(name.place, message)
    })
}

/// Of a variable with more values than this only some are told.
const MOST_LISTED: usize = 8;
