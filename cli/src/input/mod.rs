//! The reading of a job in any of its forms.
//!
//! - `content`: which form a file has;
//! - `named`: a task with a planner's names;
//! - `origin`: where the parts of a job stand in what was read.

mod content;
mod named;
mod origin;

pub use origin::{Form, Origin, Part, Spot};

use crate::answer::Tally;
use crate::failure::Failure;
use crate::job::{self, Job};
use crate::library;
use crate::options::STANDARD;
use crate::planner;
use crate::refusal;
use crate::reply::{NoAnswer, NoWords};
use crate::sheet;
use content::{content, text, with_line_ends, Content};
use named::named;
use std::io::Read;

/// What a command works on: a sheet that the library has accepted, and a list.
pub struct Lodged {
    pub sheet: Vec<u32>,
    pub job: Job,
    pub origin: Origin,
}

/// What standard input is called.
const STANDARD_NAME: &str = "standard input";

/// A file that was read, and what messages call it.
pub struct File<'a> {
    pub name: &'a str,
    pub bytes: Vec<u8>,
}

/// Reads a job from a file, of which a planner's text has its plan in a second one.
pub fn read(file: &str, plan: Option<&str>) -> Result<Lodged, Failure> {
    let file = read_file(file)?;
    let plan = plan.map(read_file).transpose()?;
    read_files(&file, plan.as_ref())
}

/// Reads a job from the files' bytes.
pub fn read_files(file: &File, plan: Option<&File>) -> Result<Lodged, Failure> {
    let kind = content(&file.bytes);
    let name = file.name;
    if plan.is_some() && kind != Content::Planner {
        let message =
            format!("{name}: only a planner's text (output.sas) has its plan in a second file");
        return Err(Failure::unread(message));
    }
    match kind {
        Content::Job => read_job(file),
        Content::Words => read_words(name, text(&file.bytes)),
        Content::Binary => open(Origin::new(name, Form::Binary), &file.bytes),
        Content::Planner => read_planner(file, plan),
        other => Err(Failure::unread(format!("{name}: {}", why_not(&other)))),
    }
}

impl Lodged {
    /// Has the library check the list, which must have been given.
    pub fn check(&self) -> Result<Tally, Failure> {
        if let Form::Planner { lines: None, .. } = self.origin.form {
            let message = format!(
                "{}: its plan is expected behind it, {WITH_PLAN}",
                self.origin.file
            );
            return Err(Failure::unread(message));
        }
        let tally = library::check_list(&self.sheet, &self.job.list);
        tally.map_err(|it| self.unanswered(it))
    }

    /// Why the library gives no answer of the list.
    pub fn unanswered(&self, why: NoAnswer) -> Failure {
        match why {
            NoAnswer::Refused(refusal) => refusal::of_list(refusal, self),
            NoAnswer::Unknown(words) => words.into(),
        }
    }

    /// Sheet and list in the program's form: the list's length stands between them.
    pub fn bytes(&self) -> Result<Vec<u8>, Failure> {
        let length = [self.job.list.len() as u32];
        let words = [&self.sheet[..], &length, &self.job.list].concat();
        Ok(library::pack(&words)?)
    }
}

fn read_file(file: &str) -> Result<File<'_>, Failure> {
    let name = if file == STANDARD {
        STANDARD_NAME
    } else {
        file
    };
    let read = if file == STANDARD {
        let mut bytes = Vec::new();
        std::io::stdin().read_to_end(&mut bytes).map(|_| bytes)
    } else {
        std::fs::read(file)
    };
    let bytes = read.map_err(|error| Failure::of_file(name, "read", &error))?;
    Ok(File { name, bytes })
}

/// How a plan is given.
const WITH_PLAN: &str = "as in: hollchiku shorten output.sas sas_plan";

/// Why a file of this content is no job.
fn why_not(content: &Content) -> String {
    let why = match content {
        Content::Plan => {
            return format!("a plan alone: give the planner's text before it, {WITH_PLAN}")
        }
        Content::Empty => "there is nothing in it but white space and comments",
        Content::Utf16 => "a text in UTF-16: save it as UTF-8",
        _ => "neither a text nor words: it holds bytes of another kind of file",
    };
    why.to_string()
}

fn read_job(file: &File) -> Result<Lodged, Failure> {
    let (name, bytes) = (file.name, text(&file.bytes));
    let text = std::str::from_utf8(bytes).map_err(|error| {
        let line = 1 + bytes[..error.valid_up_to()]
            .iter()
            .filter(|it| **it == b'\n')
            .count();
        Failure::unread(format!(
            "{name}:{line}: a letter that is not UTF-8: save the file as UTF-8"
        ))
    })?;
    let (job, lines) = job::read(text).map_err(|faults| Failure::faulty(name, &faults))?;
    accept(
        sheet::encode(&job.task),
        job,
        Origin::new(name, Form::Job(lines)),
    )
}

fn read_words(name: &str, text: &[u8]) -> Result<Lodged, Failure> {
    let words = library::read_words(text).map_err(|why| no_words(name, why))?;
    open(
        Origin::new(name, Form::Words(text.to_vec())),
        &library::pack(&words)?,
    )
}

fn no_words(name: &str, why: NoWords) -> Failure {
    let message = match why {
        NoWords::Field(line) => {
            format!("{name}:{line}: a word is expected, a whole number of 0 to 4294967295")
        }
        NoWords::TooMany(line) => {
            format!("{name}:{line}: more words than a sheet and its list have")
        }
        NoWords::TooLong => format!("{name}: a text of more than 1048576 bytes"),
        NoWords::Unknown(words) => return words.into(),
    };
    Failure::unread(message)
}

/// Opens words in the program's form; their parts are called by their numbers.
fn open(origin: Origin, bytes: &[u8]) -> Result<Lodged, Failure> {
    let (sheet, list) = match library::open(bytes) {
        Ok(parts) => parts,
        Err(NoAnswer::Refused(refusal)) => return Err(refusal::of_form(refusal, bytes, origin)),
        Err(NoAnswer::Unknown(words)) => return Err(words.into()),
    };
    let unnamed = Job {
        list,
        ..Job::default()
    };
    let mut lodged = accept(sheet, unnamed, origin)?;
    lodged.job.task = sheet::decode(&lodged.sheet);
    Ok(lodged)
}

/// Has the library check the sheet and what the list names, so that all of both can be looked up.
/// Whether the list is valid is another question.
fn accept(sheet: Vec<u32>, job: Job, origin: Origin) -> Result<Lodged, Failure> {
    let lodged = Lodged { sheet, job, origin };
    match library::check_list(&lodged.sheet, &lodged.job.list) {
        Ok(_) => Ok(lodged),
        Err(NoAnswer::Refused(refusal)) if refusal.number == INVALID => Ok(lodged),
        Err(why) => Err(lodged.unanswered(why)),
    }
}

/// The number of the refusal of a list that can be read and is not valid.
const INVALID: u64 = 11;

fn read_planner(file: &File, plan: Option<&File>) -> Result<Lodged, Failure> {
    let text = with_line_ends(&file.bytes);
    let sheet = library::translate(&text).map_err(|why| match why {
        NoAnswer::Refused(refusal) => refusal::of_planner(refusal, file.name, &text),
        NoAnswer::Unknown(words) => words.into(),
    })?;
    let names = planner::names(&text);
    let moves = plan.map_or(Ok(Vec::new()), |plan| read_plan(plan, &names.actions))?;
    let form = Form::Planner {
        lines: plan.map(|_| moves.iter().map(|it| it.line).collect()),
        names: names.actions.clone(),
        unit_cost: names.unit_cost,
    };
    let job = Job {
        title: None,
        task: named(sheet::decode(&sheet), names),
        list: moves.iter().map(|it| it.action).collect(),
    };
    accept(sheet, job, Origin::new(plan.unwrap_or(file).name, form))
}

fn read_plan(plan: &File, actions: &[String]) -> Result<Vec<planner::Move>, Failure> {
    let (name, bytes) = (plan.name, text(&plan.bytes));
    let kind = content(&plan.bytes);
    if matches!(kind, Content::Utf16 | Content::Binary | Content::Rubbish) {
        return Err(Failure::unread(format!("{name}: {}", why_not(&kind))));
    }
    let moves = planner::read_plan(&String::from_utf8_lossy(bytes), actions);
    moves.map_err(|fault| Failure::faulty(name, &[fault]))
}
