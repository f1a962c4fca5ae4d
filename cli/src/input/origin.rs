//! Where the parts of a job stand in what was read, so that a message can begin with file and line.

use crate::job::Lines;
use crate::library;

/// A part of a job, and the index of its word among those of the sheet, the list's length and the
/// list.
#[derive(Clone, Copy, Debug, PartialEq)]
pub struct Spot {
    pub part: Part,
    pub word: usize,
}

/// Variables, actions and moves by their indices.
#[derive(Clone, Copy, Debug, PartialEq)]
pub enum Part {
    Whole,
    Variable(usize),
    Action(usize),
    Goal,
    Move(usize),
    /// A word of the layout, which only words have.
    Word,
}

/// A file, and what is known of its lines.
pub struct Origin {
    pub file: String,
    pub form: Form,
}

pub enum Form {
    Job(Lines),
    /// The text of words.
    Words(Vec<u8>),
    Binary,
    /// The lines of a plan's moves, if there is a plan; the names of the actions as the planner has
    /// them, and whether each costs 1.
    Planner {
        lines: Option<Vec<usize>>,
        names: Vec<String>,
        unit_cost: bool,
    },
}

impl Origin {
    pub fn new(file: &str, form: Form) -> Origin {
        let file = file.to_string();
        Origin { file, form }
    }

    /// What a message about a part begins with.
    pub fn at(&self, spot: Spot) -> String {
        match self.line(spot) {
            Some(line) => format!("{}:{line}", self.file),
            None => self.file.clone(),
        }
    }

    fn line(&self, spot: Spot) -> Option<usize> {
        match (&self.form, spot.part) {
            (Form::Words(_) | Form::Binary, Part::Whole) => None,
            (Form::Words(text), _) => line_of_word(text, spot.word),
            (Form::Job(lines), Part::Variable(v)) => lines.variables.get(v).copied(),
            (Form::Job(lines), Part::Action(a)) => lines.actions.get(a).copied(),
            (Form::Job(lines), Part::Goal) => Some(lines.goal),
            (Form::Job(lines), Part::Move(i)) => lines.moves.get(i).copied(),
            (Form::Planner { lines, .. }, Part::Move(i)) => lines.as_ref()?.get(i).copied(),
            _ => None,
        }
    }
}

/// The line of a text on which a word stands, by its index: the first up to which the library reads
/// more words.
fn line_of_word(text: &[u8], word: usize) -> Option<usize> {
    let ends = text.iter().enumerate().filter(|(_, byte)| **byte == b'\n');
    let ends: Vec<usize> = ends.map(|(at, _)| at + 1).chain([text.len()]).collect();
    let has_read = |end: &usize| library::read_words(&text[..*end]).is_ok_and(|it| it.len() > word);
    let line = ends.partition_point(|end| !has_read(end));
    (line < ends.len()).then_some(line + 1)
}
