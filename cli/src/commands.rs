//! What each command does.

use crate::answer::{Shortened, Tally};
use crate::course::course;
use crate::failure::Failure;
use crate::help::{help, version};
use crate::input::{self, Form, Lodged};
use crate::job::{self, Job};
use crate::library;
use crate::options::{Command, Request, Shown, Verb, STANDARD};
use crate::page::{page, Contents};
use crate::planner;
use crate::shorten::{claim, notice, shorten, Asked};
use crate::table::table;
use crate::terminal;
use std::io::Write;
use std::path::Path;

/// What standard output is called.
const STANDARD_NAME: &str = "standard output";

pub fn run(request: Request) -> Result<(), Failure> {
    match request {
        Request::Help(verb) => write(None, help(verb).as_bytes()),
        Request::Version => write(None, format!("{}\n", version()).as_bytes()),
        Request::Run(command) => run_command(&command),
    }
}

fn run_command(command: &Command) -> Result<(), Failure> {
    let answered =
        input::read(&command.file, command.plan.as_deref()).and_then(|it| answer(command, &it));
    let output = command.output.as_deref();
    match answered {
        Ok(Answer { bytes, notice }) => {
            write(output, &bytes)?;
            if let Some(notice) = notice {
                eprintln!("{notice}");
            }
            Ok(())
        }
        Err(failure) => {
            if let (Some(refusal), Shown::Plain) = (failure.refusal, command.shown) {
                let line = format!("refused {} {}\n", refusal.number, refusal.place);
                write(output, line.as_bytes())?;
            }
            Err(failure)
        }
    }
}

/// What a command answers: what is printed or written, and what is told on standard error besides.
struct Answer {
    bytes: Vec<u8>,
    notice: Option<String>,
}

impl From<Vec<u8>> for Answer {
    fn from(bytes: Vec<u8>) -> Answer {
        let notice = None;
        Answer { bytes, notice }
    }
}

fn answer(command: &Command, lodged: &Lodged) -> Result<Answer, Failure> {
    Ok(match command.verb {
        Verb::Shorten => {
            let answered = shorten(lodged, command.asked)?;
            let bytes = shortened(command, lodged, &answered)?;
            noticing(lodged, &answered, bytes)
        }
        Verb::Check => {
            let tally = lodged.check()?;
            let line = format!("valid: {}, price {}\n", tally.so_many(), tally.price);
            line.into_bytes().into()
        }
        Verb::Words if command.is_binary => lodged.bytes()?.into(),
        Verb::Words => words(lodged)?.into(),
        Verb::Job => job::write(&lodged.job).into_bytes().into(),
        Verb::Page => {
            let answered = shorten(lodged, Asked::Licence)?;
            let bytes = lodged_page(lodged, &answered)?;
            noticing(lodged, &answered, bytes)
        }
    })
}

/// An answer with what must be told of it, whatever is printed.
fn noticing(lodged: &Lodged, answered: &Shortened, bytes: Vec<u8>) -> Answer {
    let notice = notice(answered.way).map(|it| format!("{}: {it}", lodged.origin.file));
    Answer { bytes, notice }
}

/// The words of sheet and list as a text.
fn words(lodged: &Lodged) -> Result<Vec<u8>, Failure> {
    Ok(library::text_of(&lodged.bytes()?)?)
}

fn shortened(command: &Command, lodged: &Lodged, answered: &Shortened) -> Result<Vec<u8>, Failure> {
    let Lodged { sheet, job, origin } = lodged;
    Ok(match (command.shown, command.asked) {
        (Shown::Plain, Asked::Exact) => library::shorten_lines(sheet, &job.list)?,
        (Shown::Plain, _) => library::license_lines(sheet, &job.list)?,
        (Shown::Table, _) => table(job, answered, terminal::style()).into_bytes(),
        (Shown::Kept, _) => {
            let list = answered.list.clone();
            kept_text(job, list, answered.left, &origin.form).into_bytes()
        }
    })
}

/// The shortened list in the form in which the list came: a plan file, or a job.
fn kept_text(job: &Job, list: Vec<u32>, left: Tally, form: &Form) -> String {
    match form {
        Form::Planner {
            unit_cost, names, ..
        } => {
            let names = list.iter().map(|it| names[*it as usize].as_str());
            planner::write_plan(names, left.price, *unit_cost)
        }
        _ => job::write(&Job {
            list,
            ..job.clone()
        }),
    }
}

fn lodged_page(lodged: &Lodged, answered: &Shortened) -> Result<Vec<u8>, Failure> {
    let Lodged { sheet, job, origin } = lodged;
    let file = Path::new(&origin.file).file_stem().unwrap_or_default();
    let words = words(lodged)?;
    let course = course(sheet, &job.list, answered).map_err(|it| lodged.unanswered(it))?;
    let text = page(&Contents {
        title: job.title.as_deref().unwrap_or(&file.to_string_lossy()),
        task: &job.task,
        list: &job.list,
        shortened: answered,
        course: &course,
        claim: &claim(answered.way),
        words: &String::from_utf8_lossy(&words),
        version: &version(),
    });
    Ok(text.into_bytes())
}

/// Writes an answer, all of it or none that counts: what can't be written is told.
fn write(output: Option<&str>, bytes: &[u8]) -> Result<(), Failure> {
    match output.filter(|it| *it != STANDARD) {
        Some(file) => {
            std::fs::write(file, bytes).map_err(|error| Failure::of_file(file, WRITTEN, &error))
        }
        None => {
            let mut standard = std::io::stdout().lock();
            let written = standard.write_all(bytes).and_then(|()| standard.flush());
            written.map_err(|error| Failure::of_file(STANDARD_NAME, WRITTEN, &error))
        }
    }
}

const WRITTEN: &str = "written";
