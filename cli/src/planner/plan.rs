//! Plan files: a move in parentheses on each line, and comments.

use crate::fault::{Fault, Place};
use crate::nearest::hint;
use std::ops::Range;

/// A move of a plan file: its action, and its line.
#[derive(Clone, Copy, Debug, PartialEq)]
pub struct Move {
    pub action: u32,
    pub line: usize,
}

/// What some editors put in front of a text.
const BYTE_ORDER_MARK: char = '\u{feff}';
/// A comment goes on to the end of its line.
const COMMENT: char = ';';
const OPEN: char = '(';
const CLOSE: char = ')';

/// Reads the moves of a plan, each by its action's name.
pub fn read_plan(text: &str, actions: &[String]) -> Result<Vec<Move>, Fault> {
    let names: Vec<String> = actions.iter().map(|it| single_spaced(it)).collect();
    let text = text.strip_prefix(BYTE_ORDER_MARK).unwrap_or(text);
    let mut moves = Vec::new();
    for (text, number) in text.lines().zip(1..) {
        let line = Line::new(text, number);
        if let Some(name) = line.name()? {
            let found = find(&names, &single_spaced(&text[name.clone()]));
            let action = found.map_err(|message| line.fault(name.start, message))? as u32;
            moves.push(Move {
                action,
                line: number,
            });
        }
    }
    Ok(moves)
}

/// A plan file of these moves, with what they cost in its last line, as planners write it.
pub fn write_plan<'a>(moves: impl Iterator<Item = &'a str>, price: u32, unit_cost: bool) -> String {
    let moves: String = moves.map(|name| format!("{OPEN}{name}{CLOSE}\n")).collect();
    let kind = if unit_cost { "unit" } else { "general" };
    format!("{moves}{COMMENT} cost = {price} ({kind} cost)\n")
}

/// A name as it is compared: white space only parts its words.
fn single_spaced(name: &str) -> String {
    let words: Vec<&str> = name.split_whitespace().collect();
    words.join(" ")
}

/// The index of the one action that is meant by a name; or what to say where there is none, or more than one.
fn find(names: &[String], name: &str) -> Result<usize, String> {
    let mut found = indices(names, |it| it == name);
    if found.is_empty() {
        // Some planners change the case of all names.
        found = indices(names, |it| it.eq_ignore_ascii_case(name));
    }
    match found[..] {
        [index] => Ok(index),
        [] => Err(unknown(names, name)),
        [first, second, ..] => Err(unclear(&names[first], &names[second])),
    }
}

fn indices(names: &[String], is_it: impl Fn(&str) -> bool) -> Vec<usize> {
    let found = names.iter().enumerate().filter(|(_, it)| is_it(it));
    found.map(|(index, _)| index).collect()
}

fn unknown(names: &[String], name: &str) -> String {
    let hint = hint(name, names.iter().map(String::as_str));
    format!("there is no action {name:?}{hint}")
}

fn unclear(first: &str, second: &str) -> String {
    let why = match first == second {
        true => format!("two actions are called {first:?}"),
        false => format!("{first:?} and {second:?} differ in case alone"),
    };
    format!("{why}: the plan does not say which")
}

/// A line up to its comment, and its number from 1.
struct Line<'a> {
    text: &'a str,
    number: usize,
}

impl<'a> Line<'a> {
    fn new(text: &'a str, number: usize) -> Line<'a> {
        let end = text.find(COMMENT).unwrap_or(text.len());
        let text = text[..end].trim_end();
        Line { text, number }
    }

    /// Where the name of the line's move stands, if there is a move.
    fn name(&self) -> Result<Option<Range<usize>>, Fault> {
        let Some(open) = self.first_sign(0) else {
            return Ok(None);
        };
        if !self.text[open..].starts_with(OPEN) {
            return Err(self.fault(
                open,
                "a move is expected here, in parentheses: (name arguments)",
            ));
        }
        let Some(close) = self.closing(open) else {
            return Err(self.fault(
                self.text.len(),
                "the move's closing parenthesis is expected here",
            ));
        };
        if let Some(behind) = self.first_sign(close + 1) {
            return Err(self.fault(
                behind,
                "a line end is expected here: each move has a line of its own",
            ));
        }
        let start = self.first_sign(open + 1).unwrap_or(close);
        Ok(Some(start..close))
    }

    /// The first place from this one on that is no white space.
    fn first_sign(&self, from: usize) -> Option<usize> {
        let at = self.text[from..].find(|sign: char| !sign.is_whitespace());
        at.map(|at| from + at)
    }

    /// Where the parenthesis is closed that is opened here. A name may have others in it.
    fn closing(&self, open: usize) -> Option<usize> {
        let mut depth = 0;
        let closes = |(_, sign): &(usize, char)| {
            depth += i32::from(*sign == OPEN) - i32::from(*sign == CLOSE);
            depth == 0
        };
        let closing = self.text[open..].char_indices().find(closes);
        closing.map(|(at, _)| open + at)
    }

    /// What is wrong at a place of the line.
    fn fault(&self, at: usize, message: impl Into<String>) -> Fault {
        let (line, column) = (self.number, self.text[..at].chars().count() + 1);
        Fault::at(Place { line, column }, message)
    }
}

#[cfg(test)]
mod tests {
    use super::*;

    const ACTIONS: [&str; 4] = ["lift gate", "drop gate", "Drain", "lift(spare)"];

    fn read(names: &[&str], text: &str) -> Result<Vec<Move>, Fault> {
        let names: Vec<String> = names.iter().map(|it| it.to_string()).collect();
        read_plan(text, &names)
    }

    /// The actions of a plan's moves, and their lines.
    fn moves(text: &str) -> Vec<(u32, usize)> {
        let moves = read(&ACTIONS, text).expect("a plan");
        moves.iter().map(|it| (it.action, it.line)).collect()
    }

    /// A plan of these actions can't be read, and this is said, behind line and column.
    fn says(names: &[&str], text: &str, due: &str) {
        let Fault { place, message } = read(names, text).expect_err("no plan");
        let Place { line, column } = place.expect("a place");
        assert_eq!(format!("{line}:{column}: {message}"), due);
    }

    #[test]
    fn moves_in_their_order() {
        assert_eq!(moves("(drop gate)\n(lift gate)\n"), [(1, 1), (0, 2)]);
        assert_eq!(moves(""), []);
    }

    #[test]
    fn comments_and_blank_lines() {
        let text = "; a plan\n\n(lift gate) ; (wide)\n \t\n  ; (drop gate)\n(drop gate);\n; cost = 2 (unit cost)\n";
        assert_eq!(moves(text), [(0, 3), (1, 6)]);
    }

    #[test]
    fn spaces_around_and_within() {
        assert_eq!(moves(" \t( lift \t gate )  \n"), [(0, 1)]);
        let of_spaced = read(&[" lift  gate "], "(lift gate)");
        assert_eq!(of_spaced, Ok(vec![Move { action: 0, line: 1 }]));
    }

    #[test]
    fn line_ends_and_a_byte_order_mark() {
        assert_eq!(
            moves("\u{feff}(lift gate)\r\n\r\n(drop gate)\r\n"),
            [(0, 1), (1, 3)]
        );
        assert_eq!(moves("(lift gate)\n(drop gate)"), [(0, 1), (1, 2)]);
    }

    #[test]
    fn parentheses_in_a_name() {
        assert_eq!(moves("(lift(spare))"), [(3, 1)]);
    }

    #[test]
    fn case_counts_where_it_tells() {
        assert_eq!(moves("(LIFT Gate)\n(drain)\n"), [(0, 1), (2, 2)]);
        let of_alike = read(&["B", "b"], "(b)");
        assert_eq!(of_alike, Ok(vec![Move { action: 1, line: 1 }]));
    }

    #[test]
    fn names_of_two_actions() {
        let alike = "2:2: two actions are called \"lift gate\": the plan does not say which";
        says(&["lift gate", "lift  gate"], "\n(lift gate)", alike);
        let but_for_case =
            "1:2: \"Ab\" and \"aB\" differ in case alone: the plan does not say which";
        says(&["Ab", "aB"], "(ab)", but_for_case);
    }

    #[test]
    fn unknown_names() {
        let near = "2:3: there is no action \"lift gat\"; did you mean \"lift gate\"?";
        says(&ACTIONS, "(lift gate)\n( lift gat )", near);
        says(&ACTIONS, "(turbine)", "1:2: there is no action \"turbine\"");
        says(&ACTIONS, "()", "1:2: there is no action \"\"");
    }

    #[test]
    fn lines_that_are_no_moves() {
        let no_move = "1:3: a move is expected here, in parentheses: (name arguments)";
        says(&ACTIONS, "  lift gate\n", no_move);
        let not_closed = "1:11: the move's closing parenthesis is expected here";
        says(&ACTIONS, "(lift gate ; )\n", not_closed);
        let more = "1:13: a line end is expected here: each move has a line of its own";
        says(&ACTIONS, "(lift gate) (drop gate)", more);
    }

    #[test]
    fn columns_are_characters() {
        let wide_space = "\u{feff}\u{3000}(x)";
        says(&[], wide_space, "1:3: there is no action \"x\"");
    }

    #[test]
    fn what_is_written_is_read() {
        let written = write_plan(["lift(spare)", "Drain"].into_iter(), 12, false);
        assert_eq!(
            written,
            "(lift(spare))\n(Drain)\n; cost = 12 (general cost)\n"
        );
        assert_eq!(moves(&written), [(3, 1), (2, 2)]);
        assert_eq!(
            write_plan(std::iter::empty(), 0, true),
            "; cost = 0 (unit cost)\n"
        );
    }
}
