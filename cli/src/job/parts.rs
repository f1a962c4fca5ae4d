//! The headers of a job by what they are.

use super::lines::{Entry, Keyword};
use crate::fault::Fault;

/// The entries of a job by what they are.
#[derive(Default)]
pub struct Parts<'a> {
    pub title: Option<&'a Entry>,
    pub variables: Vec<&'a Entry>,
    pub start: Option<&'a Entry>,
    pub goal: Option<&'a Entry>,
    pub actions: Vec<Parted<'a>>,
    pub list: Option<&'a Entry>,
}

/// The entries of an action.
pub struct Parted<'a> {
    pub action: &'a Entry,
    pub needs: Option<&'a Entry>,
    pub then: Option<&'a Entry>,
}

/// Sorts the entries of a job, and says which of them should not be there.
pub fn parts(entries: &[Entry]) -> (Parts<'_>, Vec<Fault>) {
    let (mut parts, mut faults) = (Parts::default(), Vec::new());
    let mut is_in_action = false;
    for entry in entries {
        let taken = parts.take(entry, is_in_action);
        faults.extend(taken.err());
        is_in_action = matches!(
            entry.keyword,
            Keyword::Action | Keyword::Needs | Keyword::Then
        );
    }
    (parts, faults)
}

impl<'a> Parts<'a> {
    fn take(&mut self, entry: &'a Entry, is_in_action: bool) -> Result<(), Fault> {
        match entry.keyword {
            Keyword::Title => once(&mut self.title, entry),
            Keyword::Start => once(&mut self.start, entry),
            Keyword::Goal => once(&mut self.goal, entry),
            Keyword::List => once(&mut self.list, entry),
            Keyword::Needs | Keyword::Then => of_action(self, entry, is_in_action),
            Keyword::Variable => {
                self.variables.push(entry);
                Ok(())
            }
            Keyword::Action => {
                let (action, needs, then) = (entry, None, None);
                self.actions.push(Parted {
                    action,
                    needs,
                    then,
                });
                Ok(())
            }
        }
    }
}

/// Takes an entry of which there is one in a job.
fn once<'a>(slot: &mut Option<&'a Entry>, entry: &'a Entry) -> Result<(), Fault> {
    match slot.replace(entry) {
        None => Ok(()),
        Some(first) => {
            let header = entry.keyword.text();
            let message = format!(
                "a second \"{header}:\" (the first is on line {})",
                first.place.line
            );
            Err(Fault::at(entry.place, message))
        }
    }
}

/// Takes an entry of the action above it.
fn of_action<'a>(parts: &mut Parts<'a>, entry: &'a Entry, is_in_action: bool) -> Result<(), Fault> {
    match parts.actions.last_mut() {
        Some(action) if is_in_action => match entry.keyword {
            Keyword::Needs => once(&mut action.needs, entry),
            _ => once(&mut action.then, entry),
        },
        _ => {
            let header = entry.keyword.text();
            let message = format!(
                "\"{header}:\" stands below the action that it belongs to, and here is none"
            );
            Err(Fault::at(entry.place, message))
        }
    }
}
