//! Causes 13 to 15: what is wrong with a planner's text.

use super::out_of_table;
use crate::failure::Failure;
use crate::reply::Refusal;

/// The most bytes of a planner's text.
const MOST_BYTES: usize = 65_536;

/// The refusal of a text. Its line is quoted, since the form is the planner's and not the reader's.
pub fn of_planner(refusal: Refusal, name: &str, text: &[u8]) -> Failure {
    let line = refusal.place as usize;
    let message = match (refusal.number, line) {
        (13, 0) => format!("{name}: a planner's text of {} bytes; at most {MOST_BYTES} are read", text.len()),
        (13, _) => {
            let why = "not what the form of a translator's output (version 3) has here";
            format!("{name}:{line}: {why}: {}", quoted(text, line))
        }
        (14, 1..) => {
            let why = "an axiom, a derived variable or an effect with a condition: a job sheet can't say it";
            format!("{name}:{line}: {why}: {}", quoted(text, line))
        }
        (15, _) => format!(
            "{name}: its task is too large for a job sheet, or has a variable twice in one group of facts; docs/SCOPE.md \
             has the limits"
        ),
        _ => return out_of_table(refusal),
    };
    Failure::refused(refusal, message)
}

/// So much of a line is quoted.
const MOST_QUOTED: usize = 60;

fn quoted(text: &[u8], line: usize) -> String {
    let lines = text
        .strip_suffix(b"\n")
        .unwrap_or(text)
        .split(|it| *it == b'\n');
    match lines.skip(line - 1).next() {
        None => "the text ends before it".to_string(),
        Some(bytes) => {
            let told: String = String::from_utf8_lossy(bytes)
                .chars()
                .take(MOST_QUOTED)
                .collect();
            format!("{told:?}")
        }
    }
}
