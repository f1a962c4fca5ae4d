//! A job as a text.

use super::lines::Keyword;
use super::{Job, IS, NOTHING, PRICE};
use crate::task::{Action, Fact, Task, Variable};
use std::fmt::Write;

/// A line of facts or values is broken behind so many characters.
const WIDTH: usize = 100;
const INDENT: &str = "  ";

/// The text of a job, which is read back as the same job.
pub fn write(job: &Job) -> String {
    let mut text = String::new();
    if let Some(title) = &job.title {
        put(&mut text, &format!("{}: {title}", Keyword::Title.text()));
        text.push('\n');
    }
    for variable in &job.task.variables {
        put_variable(&mut text, variable);
    }
    text.push('\n');
    let start = job.task.variables.iter().enumerate();
    let start: Vec<Fact> = start
        .map(|(variable, it)| Fact {
            variable,
            value: it.start,
        })
        .collect();
    put_facts(&mut text, "", Keyword::Start, &start, &job.task);
    put_facts(&mut text, "", Keyword::Goal, &job.task.goal, &job.task);
    for action in &job.task.actions {
        put_action(&mut text, action, &job.task);
    }
    put_list(&mut text, job);
    text
}

fn put(text: &mut String, line: &str) {
    text.push_str(line);
    text.push('\n');
}

fn put_variable(text: &mut String, variable: &Variable) {
    let header = format!("{} {}:", Keyword::Variable.text(), quoted(&variable.name));
    put_items(
        text,
        "",
        &header,
        variable.values.iter().map(|it| quoted_value(it)),
    );
}

fn put_action(text: &mut String, action: &Action, task: &Task) {
    let header = format!("{} {}:", Keyword::Action.text(), quoted(&action.name));
    put(text, &format!("\n{header} {PRICE} {}", action.price));
    if !action.needs.is_empty() {
        put_facts(text, INDENT, Keyword::Needs, &action.needs, task);
    }
    put_facts(text, INDENT, Keyword::Then, &action.effects, task);
}

fn put_list(text: &mut String, job: &Job) {
    let header = format!("\n{}:", Keyword::List.text());
    if job.list.is_empty() {
        put(text, &format!("{header} {NOTHING}"));
        return;
    }
    put(text, &header);
    for &action in &job.list {
        let name = &job.task.actions[action as usize].name;
        put(text, &format!("{INDENT}{}", quoted(name)));
    }
}

fn put_facts(text: &mut String, indent: &str, keyword: Keyword, facts: &[Fact], task: &Task) {
    let header = format!("{}:", keyword.text());
    if facts.is_empty() {
        put(text, &format!("{indent}{header} {NOTHING}"));
        return;
    }
    let fact = |it: &Fact| {
        format!(
            "{} {IS} {}",
            quoted(task.variable_of(*it)),
            quoted(task.value_of(*it))
        )
    };
    put_items(text, indent, &header, facts.iter().map(fact));
}

/// Items behind a header; where a line is full the next begins below, further in.
fn put_items(text: &mut String, indent: &str, header: &str, items: impl Iterator<Item = String>) {
    let mut line = format!("{indent}{header}");
    let mut sign = "";
    for item in items {
        if line.chars().count() + item.chars().count() > WIDTH {
            put(text, &format!("{line}{sign}"));
            line = format!("{indent}{INDENT}{item}");
        } else {
            let _ = write!(line, "{sign} {item}");
        }
        sign = ",";
    }
    put(text, &line);
}

/// A name as it is written: in quotes where it would not be read as a name without them.
fn quoted(name: &str) -> String {
    let words: Vec<&str> = name.split_whitespace().collect();
    let is_plain = words.join(" ") == name
        && !words.is_empty()
        && !name.contains(['"', ',', ':', '\\'])
        && !words.iter().any(|it| it.starts_with('#') || *it == IS)
        && name != NOTHING;
    if is_plain {
        name.to_string()
    } else {
        in_quotes(name)
    }
}

/// A value's name, in quotes also where a line that it begins would look like a header.
fn quoted_value(name: &str) -> String {
    match name.split_whitespace().next().and_then(Keyword::of) {
        Some(_) => in_quotes(name),
        None => quoted(name),
    }
}

fn in_quotes(name: &str) -> String {
    let escaped = name.replace('\\', "\\\\").replace('"', "\\\"");
    format!("\"{escaped}\"")
}
