//! The words of the command line.
//!
//! - `verbs`: the commands, and the options that each takes.

mod verbs;

pub use verbs::{Shown, Verb, STANDARD};

use crate::failure::Failure;
use crate::nearest::nearest;
use crate::shorten::Asked;
use verbs::{Flag, HELP, OUTPUT, VERBS, VERSION};

/// What is to be done.
#[derive(Debug, PartialEq)]
pub enum Request {
    Help(Option<Verb>),
    Version,
    Run(Command),
}

/// A command with its files and its options.
#[derive(Debug, PartialEq)]
pub struct Command {
    pub verb: Verb,
    pub file: String,
    /// The plan that belongs to a planner's text.
    pub plan: Option<String>,
    pub asked: Asked,
    pub shown: Shown,
    pub is_binary: bool,
    /// Where the answer goes, if not to standard output.
    pub output: Option<String>,
}

/// Reads the words behind the program's name.
pub fn parse(words: &[String]) -> Result<Request, Failure> {
    let Some((first, rest)) = words.split_first() else {
        return Ok(Request::Help(None));
    };
    if let Some((_, verb)) = VERBS.iter().find(|(text, _)| text == first) {
        return parse_command(*verb, rest);
    }
    match (first.as_str(), rest.first()) {
        (HELP | "-h" | "help", None) => Ok(Request::Help(None)),
        ("help", Some(verb)) => match VERBS.iter().find(|(text, _)| text == verb) {
            Some((_, verb)) => Ok(Request::Help(Some(*verb))),
            None => Err(unknown_verb(verb)),
        },
        (VERSION | "-V", None) => Ok(Request::Version),
        _ => Err(unknown_verb(first)),
    }
}

fn unknown_verb(text: &str) -> Failure {
    let verbs = VERBS.iter().map(|(text, _)| *text);
    if text.starts_with('-') {
        let hint = suggestion(nearest(text, [HELP, VERSION].into_iter()));
        return wrong(format!(
            "there is no option {text:?} before a command{hint}"
        ));
    }
    if std::path::Path::new(text).exists() {
        return wrong(format!(
            "{text:?} is a file, and a command is expected before it: hollchiku shorten {text}"
        ));
    }
    let hint = suggestion(nearest(text, verbs));
    wrong(format!(
        "there is no command {text:?} (hollchiku {HELP} lists them){hint}"
    ))
}

fn suggestion(nearest: Option<&str>) -> String {
    nearest.map_or_else(String::new, |it| format!("; did you mean {it}?"))
}

fn wrong(message: String) -> Failure {
    Failure::unread(format!("hollchiku: {message}"))
}

fn parse_command(verb: Verb, words: &[String]) -> Result<Request, Failure> {
    let mut options = Options::new(verb);
    let mut words = words.iter();
    let mut is_over = false;
    while let Some(word) = words.next() {
        if is_over || word == STANDARD || !word.starts_with('-') {
            options.files.push(word.clone());
        } else if word == "--" {
            is_over = true;
        } else {
            match verb.flag(word) {
                Some(Flag::Help) => return Ok(Request::Help(Some(verb))),
                Some(flag) => options.take(word, flag, &mut words)?,
                None => return Err(unknown_flag(verb, word)),
            }
        }
    }
    options.command().map(Request::Run)
}

fn unknown_flag(verb: Verb, word: &str) -> Failure {
    let flags = verb.flags().iter().map(|(text, _)| *text).chain([HELP]);
    let hint = match nearest(word, flags) {
        Some(near) => suggestion(Some(near)),
        None => format!("; hollchiku {} --help lists what there is", verb.text()),
    };
    wrong(format!("{} has no option {word:?}{hint}", verb.text()))
}

/// The options of a command as they are read.
struct Options {
    verb: Verb,
    files: Vec<String>,
    asked: Option<(String, Asked)>,
    shown: Option<(String, Shown)>,
    is_binary: bool,
    output: Option<String>,
}

impl Options {
    fn new(verb: Verb) -> Options {
        Options {
            verb,
            files: Vec::new(),
            asked: None,
            shown: None,
            is_binary: false,
            output: None,
        }
    }

    fn take<'a>(
        &mut self,
        word: &str,
        flag: Flag,
        rest: &mut impl Iterator<Item = &'a String>,
    ) -> Result<(), Failure> {
        match flag {
            Flag::Asked(asked) => one_of(&mut self.asked, word, asked),
            Flag::Shown(shown) => one_of(&mut self.shown, word, shown),
            Flag::Output => match rest.next() {
                Some(file) => {
                    self.output = Some(file.clone());
                    Ok(())
                }
                None => Err(wrong(format!("a file is expected behind {word}"))),
            },
            Flag::Binary => {
                self.is_binary = true;
                Ok(())
            }
            Flag::Help => Ok(()),
        }
    }

    fn command(self) -> Result<Command, Failure> {
        let text = self.verb.text();
        let mut files = self.files.into_iter();
        let (file, plan) = (files.next(), files.next());
        let Some(file) = file else {
            return Err(wrong(format!(
                "a file is expected: hollchiku {text} JOB (or {STANDARD} for standard input)"
            )));
        };
        if let Some(more) = files.next() {
            return Err(wrong(format!(
                "{text} takes a job, or a planner's text with its plan; {more:?} is too much"
            )));
        }
        if self.verb == Verb::Page && self.output.is_none() {
            return Err(wrong(format!(
                "a file for the page is expected: hollchiku {text} {file} {OUTPUT} FILE.html"
            )));
        }
        let (asked, shown) = (self.asked.map(|it| it.1), self.shown.map(|it| it.1));
        let (asked, shown) = (
            asked.unwrap_or(Asked::Licence),
            shown.unwrap_or(Shown::Table),
        );
        if shown == Shown::Plain && !matches!(asked, Asked::Licence | Asked::Exact) {
            let message =
                "--plain goes alone or with --exact: document 01 has no lines for an elimination";
            return Err(wrong(message.to_string()));
        }
        Ok(Command {
            verb: self.verb,
            file,
            plan,
            asked,
            shown,
            is_binary: self.is_binary,
            output: self.output,
        })
    }
}

/// Takes one of several options that exclude each other.
fn one_of<T>(slot: &mut Option<(String, T)>, word: &str, value: T) -> Result<(), Failure> {
    match slot.replace((word.to_string(), value)) {
        Some((before, _)) if before != word => {
            Err(wrong(format!("{before} and {word} exclude each other")))
        }
        _ => Ok(()),
    }
}
