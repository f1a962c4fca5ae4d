//! Prints a case whose answers differ. All but the words of the sheet and the plan is a comment, so
//! that the text can be fed back as it is printed: the front end reads it, and says what a sheet
//! means or what is wrong with it.

use crate::cases::{Call, Case, Memory};
use crate::rules::sheet_and_rest;
use std::fmt::Display;

/// The lines of a text that are printed.
const MOST_LINES: usize = 200;

/// The others are each told by a name.
pub fn print_difference(case: &Case, by_rules: &Memory, others: &[(&str, Option<Memory>)]) {
    let Case { call, lent, due } = case;
    println!("# call: {}", described(*call));
    if call.service.takes("words") {
        print!("{}", of_input(&input_words(&lent.words, &lent.plan)));
    }
    if !lent.text.is_empty() {
        print_text(&lent.text);
    }
    println!("# out has: {}", call.service.declared().out.join(", "));
    let print_answer = |title: &str, memory: &Memory| {
        println!("# {title}, returned {}:", memory.returned);
        print_memory(memory, lent);
    };
    println!("# lent:");
    print_memory(lent, lent);
    for (name, memory) in others {
        if let Some(memory) = memory {
            print_answer(&format!("the {name} answers"), memory);
        }
    }
    print_answer("the rules answer", by_rules);
    if let Some(due) = due {
        print_answer("due by the way it was made", &lent.after(due));
    }
}

/// A line that is no ASCII shows its bytes by their numbers. The case can be made again from what is
/// told above it, so a long text is cut off.
pub fn print_text(text: &[u8]) {
    println!("# text ({} bytes):", text.len());
    let lines: Vec<&[u8]> = text.split_inclusive(|&byte| byte == b'\n').collect();
    for (index, line) in lines.iter().enumerate().take(MOST_LINES) {
        println!("#   {:>5} {}", index + 1, line.escape_ascii());
    }
    if lines.len() > MOST_LINES {
        println!("#   and {} lines more", lines.len() - MOST_LINES);
    }
}

fn described(call: Call) -> String {
    let named = call.service.declared().numbers.iter().zip(call.numbers);
    let numbers = named.map(|(name, number)| format!(", {name} {number}"));
    format!("{}{}", call.service.name(), numbers.collect::<String>())
}

/// A slice that the service doesn't take is empty, and not printed.
fn print_memory(memory: &Memory, lent: &Memory) {
    for (name, (words, guards_stand)) in memory.written() {
        if !words.is_empty() {
            println!("#   {name} ({}): {}", words.len(), words.join(" "));
        }
        print_if_changed(&format!("memory beside {name}"), guards_stand);
    }
    for (name, is_as_before) in memory.read(lent) {
        print_if_changed(name, is_as_before);
    }
}

fn print_if_changed(name: &str, is_as_before: bool) {
    if !is_as_before {
        println!("#   {name} changed");
    }
}

/// A sheet, the length of the plan and the plan.
pub fn input_words(sheet: &[u32], plan: &[u32]) -> Vec<u32> {
    [sheet, &[plan.len() as u32], plan].concat()
}

/// A line for the sheet, and one for what stands behind it.
pub fn of_input(words: &[u32]) -> String {
    let (sheet, rest) = sheet_and_rest(words);
    [sheet, rest].map(|words| listed(words) + "\n").concat()
}

pub fn listed<T: Display>(words: &[T]) -> String {
    let words: Vec<String> = words.iter().map(T::to_string).collect();
    words.join(" ")
}
