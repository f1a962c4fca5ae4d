//! The commands, and the options that each takes.

use crate::shorten::Asked;

#[derive(Clone, Copy, Debug, PartialEq)]
pub enum Verb {
    Shorten,
    Check,
    Words,
    Job,
    Page,
}

/// How a shortened list is shown.
#[derive(Clone, Copy, Debug, PartialEq)]
pub enum Shown {
    Table,
    Kept,
    Plain,
}

pub const VERBS: [(&str, Verb); 5] = [
    ("shorten", Verb::Shorten),
    ("check", Verb::Check),
    ("words", Verb::Words),
    ("job", Verb::Job),
    ("page", Verb::Page),
];

/// What an option says.
#[derive(Clone, Copy, Debug, PartialEq)]
pub enum Flag {
    Asked(Asked),
    Shown(Shown),
    Binary,
    Output,
    Help,
}

/// The file that stands for standard input or output.
pub const STANDARD: &str = "-";

pub const OUTPUT: &str = "-o";
pub const HELP: &str = "--help";
pub const VERSION: &str = "--version";

/// The options of each command.
const SHORTEN_FLAGS: &[(&str, Flag)] = &[
    ("--exact", Flag::Asked(Asked::Exact)),
    ("--greedy", Flag::Asked(Asked::Greedy)),
    ("--eliminate", Flag::Asked(Asked::Eliminate)),
    ("--cheaper", Flag::Asked(Asked::Cheaper)),
    ("--kept", Flag::Shown(Shown::Kept)),
    ("--plain", Flag::Shown(Shown::Plain)),
    (OUTPUT, Flag::Output),
];
const CHECK_FLAGS: &[(&str, Flag)] = &[];
const WORDS_FLAGS: &[(&str, Flag)] = &[("--binary", Flag::Binary), (OUTPUT, Flag::Output)];
const OUTPUT_FLAGS: &[(&str, Flag)] = &[(OUTPUT, Flag::Output)];

impl Verb {
    pub fn text(self) -> &'static str {
        let found = VERBS.iter().find(|(_, it)| *it == self);
        found.map_or("", |(text, _)| text)
    }

    pub fn flags(self) -> &'static [(&'static str, Flag)] {
        match self {
            Verb::Shorten => SHORTEN_FLAGS,
            Verb::Check => CHECK_FLAGS,
            Verb::Words => WORDS_FLAGS,
            Verb::Job | Verb::Page => OUTPUT_FLAGS,
        }
    }

    pub fn flag(self, text: &str) -> Option<Flag> {
        if [HELP, "-h"].contains(&text) {
            return Some(Flag::Help);
        }
        let text = if text == "--output" { OUTPUT } else { text };
        self.flags()
            .iter()
            .find(|(it, _)| *it == text)
            .map(|(_, flag)| *flag)
    }
}
