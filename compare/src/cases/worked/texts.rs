//! Sheet P as a translator would write it, by hand, and short texts with the answers that document
//! 02 has for them.

use super::{Worked, SHEET_P};
use crate::cases::{Answer, Case, Service};
use crate::rules::{Cause, Refusal};

/// The facts of the drop and of the goal stand in falling order, and one name is a keyword.
const TEXT_P: &str = include_str!("sheet-p.sas");

/// The same with what sheets don't have: axioms, layers and a condition.
const TEXT_WITH_AXIOMS: &str = include_str!("axioms.sas");

/// Where the text with axioms tells first of what sheets don't have: the second layer.
const SECOND_LAYER: usize = 17;
const FIRST_CONDITION: usize = 36;
const AXIOMS: usize = 40;

fn answered(text: &str, words: &[u32]) -> Case {
    fitting(text, words.len()).due(Answer::translated(words.to_vec()))
}

fn fitting(text: &str, room: usize) -> Case {
    Case::without_sheet(Service::Translate, room).with_text(text.as_bytes())
}

fn refused(text: &str, refusal: Refusal) -> Case {
    fitting(text, SHEET_P.len()).refused(refusal)
}

pub fn cases() -> Vec<Worked> {
    let mut cases = accepted();
    cases.extend(broken());
    cases.extend(unsupported());
    cases.extend(unfit());
    cases
}

/// In the text without a metric each of the sheet's prices is 1.
fn accepted() -> Vec<Worked> {
    let without_metric = TEXT_P.replace("metric\n1\n", "metric\n0\n");
    let mut plain = SHEET_P;
    for price in [26, 30, 34] {
        plain[price] = 1;
    }
    let short = fitting(TEXT_P, SHEET_P.len() - 1);
    let short = short.refused(Cause::ShortOutput.at(SHEET_P.len()));
    vec![
        ("text of sheet P", answered(TEXT_P, &SHEET_P)),
        ("text without metric", answered(&without_metric, &plain)),
        ("short output", short),
    ]
}

fn broken() -> Vec<Worked> {
    let refused = |text: &str, line| refused(text, Cause::Text.at(line));
    let lines = TEXT_P.lines().count();
    let without_end = &TEXT_P[..TEXT_P.len() - 1];
    let with = |old, new| TEXT_P.replacen(old, new, 1);
    vec![
        ("empty text", refused("", 1)),
        ("one line end", refused("\n", 1)),
        ("text of one line", refused("begin_version\n", 2)),
        ("last line that does not end", refused(without_end, lines)),
        ("line too many", refused(&format!("{TEXT_P}\n"), lines + 1)),
        ("version 4", refused(&with("3", "4"), 2)),
        ("metric 2", refused(&with("metric\n1", "metric\n2"), 5)),
        ("metric 10", refused(&with("metric\n1", "metric\n10"), 5)),
        ("layer -0", refused(&with("-1", "-0"), 10)),
        ("leading zero", refused(&with("0 1", "00 1"), 33)),
    ]
}

fn unsupported() -> Vec<Worked> {
    let refused = |text: &str, line| refused(text, Cause::Unsupported.at(line));
    let layers = TEXT_WITH_AXIOMS.replace("flow\n0", "flow\n-1");
    let with_plain_effects = layers.replace("1 1 0 0 0 1", "0 0 0 1");
    let with_plain_effects = with_plain_effects.replace("2 0 0 1 1 1 -1 1", "0 1 -1 1");
    vec![
        ("layer", refused(TEXT_WITH_AXIOMS, SECOND_LAYER)),
        ("condition", refused(&layers, FIRST_CONDITION)),
        ("axioms", refused(&with_plain_effects, AXIOMS)),
    ]
}

fn unfit() -> Vec<Worked> {
    let unfit = |old, new| refused(&TEXT_P.replacen(old, new, 1), Cause::NoSheet.at(0));
    vec![
        (
            "value that reads as a fact",
            unfit("0 0\nend_goal", "0 257\nend_goal"),
        ),
        (
            "goal variable twice, alike",
            unfit("0 0\nend_goal", "1 1\nend_goal"),
        ),
        ("unknown starting value", unfit("state\n0", "state\n2")),
        ("price", unfit("\n5\n", "\n1000001\n")),
        ("price past 2^32", unfit("\n5\n", "\n4294967301\n")),
    ]
}
