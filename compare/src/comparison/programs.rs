//! Compares what the built programs write with what the rules have them write, byte for byte.

use super::inputs::{Form, Input};
use super::record::Record;
use super::report;
use crate::rules::{exact, license_by_search, search, words_of, Written};
use crate::rules::{
    written_by_license, written_by_shorten, written_by_translate, written_by_validate,
};
use std::fs;
use std::io::{Read, Write};
use std::path::{Path, PathBuf};
use std::process::{Child, Command, Stdio};
use std::sync::mpsc;
use std::thread;
use std::time::Duration;

/// A program, what it reads, what it writes for its input by the rules, and the answers that a run
/// must show of it: 0 and its refusal numbers.
pub struct Program {
    pub name: &'static str,
    /// What its cases and answers are counted under: a service may have the same name.
    pub kind: &'static str,
    pub reads: Form,
    pub due: fn(&[u8]) -> Written,
    /// The same by the search, for plans that the rules take minutes over.
    pub due_of_hard: fn(&[u8]) -> Written,
    pub answers: &'static [u64],
}

/// The one that takes lists with any number of unmarked steps.
pub const LICENSE: &str = "license";

static PROGRAMS: [Program; 4] = [
    Program {
        name: "validate",
        kind: "program: validate",
        reads: Form::Record,
        due: written_by_validate,
        due_of_hard: written_by_validate,
        answers: &[0, 1, 2, 3, 4, 5, 6, 7, 8, 9, 11],
    },
    Program {
        name: "shorten",
        kind: "program: shorten",
        reads: Form::Record,
        due: |bytes| written_by_shorten(bytes, exact),
        due_of_hard: |bytes| written_by_shorten(bytes, search::exact),
        answers: &[0, 1, 2, 3, 4, 5, 6, 7, 8, 9, 11, 12],
    },
    Program {
        name: LICENSE,
        kind: "program: license",
        reads: Form::Record,
        // The exact reduction refuses some of the hard plans, and the licence takes them all.
        due: |bytes| written_by_license(bytes, license_by_search),
        due_of_hard: |bytes| written_by_license(bytes, license_by_search),
        answers: &[0, 1, 2, 3, 4, 5, 6, 7, 8, 9, 11],
    },
    Program {
        name: "translate",
        kind: "program: translate",
        reads: Form::Text,
        due: written_by_translate,
        due_of_hard: written_by_translate,
        answers: &[0, 13, 14, 15],
    },
];

/// A program that takes longer is taken to wait for input that it has no need of.
const LONGEST_WAIT: Duration = Duration::from_secs(10);
/// The input of a difference is left in a file of this name with its number.
const REPLAY: &str = "target/compare/difference-";

/// A program where it was built.
#[derive(Clone)]
pub struct Built {
    pub program: &'static Program,
    pub path: PathBuf,
}

impl Built {
    /// The file has the program's name.
    pub fn at(path: PathBuf) -> Result<Self, String> {
        let has_name = |program: &&Program| path.file_name().is_some_and(|it| it == program.name);
        match PROGRAMS.iter().find(has_name) {
            Some(program) => Ok(Built { program, path }),
            None => Err(format!("no rules for the program {}", path.display())),
        }
    }
}

/// Those that read this form.
pub fn reading(form: Form, built: &[Built]) -> Vec<Built> {
    let reads = |built: &&Built| built.program.reads == form;
    built.iter().filter(reads).cloned().collect()
}

/// Tries each input on the programs that read its form.
pub fn compare(record: &mut Record, built: &[Built], inputs: &[Input]) {
    for built in built {
        let read = inputs
            .iter()
            .filter(|input| input.form == built.program.reads);
        for input in read {
            if record.is_over() {
                return;
            }
            try_input(record, built, input);
        }
    }
}

fn try_input(record: &mut Record, built: &Built, input: &Input) {
    let Program { name, kind, .. } = built.program;
    let due = (built.program.due)(&input.bytes);
    let written = written(&built.path, input);
    record.count(kind, kind, answer_in(&due));
    if written.as_ref() != Ok(&due) {
        record.differ(&format!("program {name}: {}", input.name));
        let replay = format!("{REPLAY}{}", record.differences);
        print_replay(&built.path, input, &replay);
        print_input(input);
        match written {
            Ok(written) => print_written("the program writes", &written),
            Err(error) => print_lines("the program fails", &error),
        }
        print_written("the rules have it write", &due);
    }
}

/// The number of a refusal, or 0.
fn answer_in(due: &Written) -> u64 {
    let lines = [&due.output[..], &due.errors].concat();
    let lines = String::from_utf8_lossy(&lines);
    let refusal = lines.strip_prefix("refused ");
    let number = refusal.and_then(|rest| rest.split(' ').next());
    number.and_then(|word| word.parse().ok()).unwrap_or(0)
}

fn print_replay(path: &Path, input: &Input, replay: &str) {
    let path = path.display();
    match input.stays_open {
        true => println!("# replay: (cat {replay}; sleep 60) | {path}"),
        false => println!("# replay: {path} < {replay}"),
    }
    if let Err(error) = fs::write(replay, &input.bytes) {
        println!("# {replay}: {error}");
    }
}

fn print_input(input: &Input) {
    if input.form == Form::Text {
        return report::print_text(&input.bytes);
    }
    let (words, rest) = words_of(&input.bytes);
    print!("{}", report::of_input(&words));
    if !rest.is_empty() {
        println!("# and bytes that are no word: {}", report::listed(rest));
    }
}

/// Output that is words is no text, and shows its bytes by their numbers.
fn print_written(title: &str, written: &Written) {
    let output = written.output.escape_ascii().to_string();
    print_lines(title, &output.replace("\\n", "\n"));
    let errors = String::from_utf8_lossy(&written.errors);
    print_lines("and to standard error", &errors);
}

fn print_lines(title: &str, lines: &str) {
    println!("# {title}:");
    for line in lines.lines() {
        println!("#   {line}");
    }
}

/// What the program writes, or what went wrong.
pub fn written(path: &Path, input: &Input) -> Result<Written, String> {
    let mut child = Command::new(path)
        .stdin(Stdio::piped())
        .stdout(Stdio::piped())
        .stderr(Stdio::piped())
        .spawn()
        .map_err(|error| format!("{}: {error}", path.display()))?;
    let mut pipe = child.stdin.take();
    // A program that has its answer doesn't read on: the write may fail then.
    let _ = pipe.as_mut().map(|pipe| pipe.write_all(&input.bytes));
    if !input.stays_open {
        pipe = None;
    }
    let written = read_all(&mut child);
    drop(pipe);
    let status = child.wait().map_err(|error| error.to_string())?;
    let written = written?;
    match status.success() {
        true => Ok(written),
        false => Err(format!("ended with {status}")),
    }
}

/// Reads in a thread of its own, so that a program that waits for ever is ended.
fn read_all(child: &mut Child) -> Result<Written, String> {
    let (sender, receiver) = mpsc::channel();
    let mut stdout = child.stdout.take().ok_or("no standard output")?;
    let mut stderr = child.stderr.take().ok_or("no standard error")?;
    thread::spawn(move || {
        let mut written = Written::default();
        let result = stdout.read_to_end(&mut written.output);
        let result = result.and_then(|_| stderr.read_to_end(&mut written.errors));
        sender.send(result.map(|_| written))
    });
    match receiver.recv_timeout(LONGEST_WAIT) {
        Ok(result) => result.map_err(|error| error.to_string()),
        Err(_) => {
            let _ = child.kill();
            Err("it waits for input that it has no need of".to_string())
        }
    }
}
