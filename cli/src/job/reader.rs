//! A job as its text means it.

use super::facts::{facts, items, name, Index, Name};
use super::lines::{entries, Entry, Keyword};
use super::parts::{parts, Parted, Parts};
use super::{Job, NOTHING, PRICE};
use crate::fault::Fault;
use crate::task::{Action, Fact, Task, Variable};

/// The lines on which the parts of a job stand.
#[derive(Clone, Debug, Default, PartialEq)]
pub struct Lines {
    pub variables: Vec<usize>,
    pub actions: Vec<usize>,
    pub goal: usize,
    pub moves: Vec<usize>,
}

/// Reads a job; or says all that is wrong with it, line by line.
pub fn read(text: &str) -> Result<(Job, Lines), Vec<Fault>> {
    let (entries, faults) = entries(text);
    let (parts, misplaced) = parts(&entries);
    let mut reader = Reader { faults };
    reader.faults.extend(misplaced);
    if !reader.faults.is_empty() {
        return Err(reader.in_order());
    }
    // What is wrong with a declaration would make all that names it look wrong too.
    let variables = reader.variables(&parts);
    let actions = reader.action_names(&parts);
    if !reader.faults.is_empty() {
        return Err(reader.in_order());
    }
    let read = reader.resolve(&parts, variables, actions);
    if !reader.faults.is_empty() {
        return Err(reader.in_order());
    }
    Ok(read)
}

struct Reader {
    faults: Vec<Fault>,
}

impl Reader {
    /// All faults by their lines, those of the whole text last.
    fn in_order(mut self) -> Vec<Fault> {
        self.faults.sort_by_key(|it| (it.place.is_none(), it.place));
        self.faults
    }

    /// Notes what is wrong, if something is.
    fn noted<T>(&mut self, result: Result<T, Fault>) -> Option<T> {
        result.map_err(|fault| self.faults.push(fault)).ok()
    }

    /// The variables, each at its first value: the start comes later.
    fn variables(&mut self, parts: &Parts) -> (Vec<Variable>, Index) {
        let mut index = Index::default();
        let mut variables = Vec::new();
        for entry in &parts.variables {
            let Some(called) = self.noted(name(&entry.name)) else {
                continue;
            };
            let values = self.values(entry, &called);
            variables.push(Variable {
                name: called.text.clone(),
                values,
                start: 0,
            });
            let added = index.add(called, "variable");
            self.noted(added);
        }
        (variables, index)
    }

    fn values(&mut self, entry: &Entry, variable: &Name) -> Vec<String> {
        let mut index = Index::default();
        for item in &entry.items {
            let added = name(item).and_then(|it| index.add(it, "value"));
            self.noted(added);
        }
        if entry.items.is_empty() {
            let message = format!(
                "the values of {:?} are expected behind the colon",
                variable.text
            );
            self.faults.push(Fault::at(entry.place, message));
        }
        index.texts().map(str::to_string).collect()
    }

    fn action_names(&mut self, parts: &Parts) -> Index {
        let mut index = Index::default();
        for part in &parts.actions {
            let added = name(&part.action.name).and_then(|it| index.add(it, "action"));
            self.noted(added);
        }
        index
    }

    fn resolve(
        &mut self,
        parts: &Parts,
        variables: (Vec<Variable>, Index),
        names: Index,
    ) -> (Job, Lines) {
        let (mut variables, index) = variables;
        self.start(parts, &mut variables, &index);
        let goal = self.section(parts.goal, Keyword::Goal);
        let goal_facts = goal.map(|it| self.facts(it, &variables, &index));
        let called: Vec<String> = names.texts().map(str::to_string).collect();
        let actions = parts.actions.iter().zip(called);
        let actions = actions.map(|(part, name)| self.action(part, name, &variables, &index));
        let actions: Vec<Action> = actions.collect();
        let list = self.section(parts.list, Keyword::List);
        let moves = list.map_or_else(Vec::new, |it| self.moves(it, &names));
        let lines = Lines {
            variables: parts.variables.iter().map(|it| it.place.line).collect(),
            actions: parts
                .actions
                .iter()
                .map(|it| it.action.place.line)
                .collect(),
            goal: goal.map_or(0, |it| it.place.line),
            moves: moves.iter().map(|(_, line)| *line).collect(),
        };
        let task = Task {
            variables,
            goal: goal_facts.unwrap_or_default(),
            actions,
        };
        let job = Job {
            title: parts.title.map(|it| it.rest.clone()),
            task,
            list: moves.into_iter().map(|(action, _)| action).collect(),
        };
        (job, lines)
    }

    /// A section that every job has.
    fn section<'a>(&mut self, entry: Option<&'a Entry>, keyword: Keyword) -> Option<&'a Entry> {
        if entry.is_none() {
            let message = format!("the job has no \"{}:\"", keyword.text());
            self.faults.push(Fault::of_all(message));
        }
        entry
    }

    fn facts(&mut self, entry: &Entry, variables: &[Variable], index: &Index) -> Vec<Fact> {
        let (facts, faults) = facts(entry, variables, index);
        self.faults.extend(faults);
        facts
    }

    /// Each variable has a value at the start.
    fn start(&mut self, parts: &Parts, variables: &mut [Variable], index: &Index) {
        let Some(entry) = self.section(parts.start, Keyword::Start) else {
            return;
        };
        let before = self.faults.len();
        let facts = self.facts(entry, variables, index);
        let is_whole = self.faults.len() == before;
        for (v, variable) in variables.iter_mut().enumerate() {
            match facts.iter().find(|it| it.variable == v) {
                Some(fact) => variable.start = fact.value,
                None if is_whole => {
                    let message = format!("{:?} has no value at the start", variable.name);
                    self.faults.push(Fault::at(entry.place, message));
                }
                None => {}
            }
        }
    }

    fn action(
        &mut self,
        part: &Parted,
        name: String,
        variables: &[Variable],
        index: &Index,
    ) -> Action {
        let price = self.noted(price(part.action, &name)).unwrap_or(0);
        let needs = part.needs.map(|it| self.facts(it, variables, index));
        let effects = part.then.map(|it| self.facts(it, variables, index));
        if effects.is_none() {
            let message = format!(
                "what {name:?} does is not said: a line \"then:\" with facts, or the word {NOTHING}"
            );
            self.faults.push(Fault::at(part.action.place, message));
        }
        Action {
            name,
            price,
            needs: needs.unwrap_or_default(),
            effects: effects.unwrap_or_default(),
        }
    }

    /// The moves of the list, each with its line.
    fn moves(&mut self, entry: &Entry, names: &Index) -> Vec<(u32, usize)> {
        let items = self.noted(items(entry, "moves are")).unwrap_or_default();
        let mut moves = Vec::new();
        for item in items {
            let found = name(item).and_then(|it| names.find(&it, "there is no action"));
            if let Some(action) = self.noted(found) {
                moves.push((action as u32, item[0].place.line));
            }
        }
        moves
    }
}

/// The price of an action. One that is beyond a word's range is beyond the library's limit too, so
/// the highest word stands for it.
fn price(entry: &Entry, name: &str) -> Result<u32, Fault> {
    let form = format!(
        "{PRICE} and a whole number are expected behind the colon, as in: action {name}: {PRICE} 5"
    );
    let [item] = entry.items.as_slice() else {
        let place = entry.items.get(1).map_or(entry.place, |it| it[0].place);
        return Err(Fault::at(place, form));
    };
    match item.as_slice() {
        [word, number] if word.is(PRICE) && is_number(&number.text) && !number.is_quoted => {
            Ok(number.text.parse().unwrap_or(u32::MAX))
        }
        words => Err(Fault::at(words[0].place, form)),
    }
}

fn is_number(text: &str) -> bool {
    text.bytes().all(|it| it.is_ascii_digit())
}
