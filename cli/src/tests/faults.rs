//! Everything that can be wrong with the text of a job, once each, with its line and column.

use super::{changed, read, said, SMALL};

/// The smallest job with this change is unreadable, and this is said of it.
fn says(old: &str, new: &str, message: &str) {
    let (status, told) = said("a.job", changed(old, new).as_bytes());
    assert_eq!((status, told.as_str()), (2, message));
}

const HEADERS: &str = "title: variable NAME: start: goal: action NAME: needs: then: list:";

#[test]
fn the_smallest_job_is_valid() {
    assert!(read("a.job", SMALL.as_bytes()).is_ok_and(|it| it.check().is_ok()));
}

/// The page about jobs begins with a job, and shows what is said.
#[test]
fn the_page_about_jobs() {
    let page = include_str!("../../../docs/JOB.md");
    let block = |number: usize| {
        page.split("```")
            .nth(2 * number + 1)
            .expect("the page has so many blocks")
    };
    assert!(read("a.job", block(0).as_bytes()).is_ok_and(|it| it.check().is_ok()));
    let refused = include_bytes!("../../../examples/weir-refused.job");
    let (_, told) = said("examples/weir-refused.job", refused);
    assert_eq!(block(2).trim().lines().last(), Some(told.as_str()));
}

#[test]
fn headers() {
    let unknown =
        "a.job:2:1: \"strat\" is no header (a name with a colon goes in quotes; the headers are";
    says(
        "start:",
        "strat:",
        &format!("{unknown} {HEADERS}); did you mean \"start\"?"),
    );
    says(
        "variable",
        "gate\nvariable",
        &format!("a.job:1:1: a header is expected here: {HEADERS}"),
    );
    says(
        "start:",
        " :",
        &format!("a.job:2:2: a header is expected before the colon: {HEADERS}"),
    );
    says(
        "variable gate:",
        "variable:",
        "a.job:1:1: the name is missing: variable NAME:",
    );
    says(
        "start:",
        "start now:",
        "a.job:2:7: a colon is expected behind \"start\"",
    );
    says(
        "start:",
        "start, goal:",
        "a.job:2:6: a comma is not expected before the colon of a header",
    );
}

#[test]
fn headers_and_what_stands_behind_them() {
    let price = "a.job:5:3: the price stands behind the action's name: action NAME: price 5";
    says("lift: price 5", "lift:\n  price: 5", price);
    let colon = "a.job:7:11: a second colon in one line: a header begins a line of its own, and a name with a colon goes in \
                 quotes";
    says("list: lift", "list: lift: drop", colon);
    says(
        "goal",
        "title: a\ntitle: b\ngoal",
        "a.job:4:1: a second \"title:\" (the first is on line 3)",
    );
}

#[test]
fn headers_without_a_colon() {
    let lost = "if this is a header, its colon is missing; a name that begins with";
    let told = |word: &str| format!("{lost} {word:?} goes in quotes here");
    says("start:", "start", &format!("a.job:2:1: {}", told("start")));
    says("needs:", "needs", &format!("a.job:5:3: {}", told("needs")));
    let unknown = "a.job:3:1: there is no variable \"goal gate\"; if this is a header, its colon is missing\n\
                   a.job: the job has no \"goal:\"";
    says("goal:", "goal", unknown);
}

#[test]
fn names() {
    says(
        "lift\n",
        "lift,, lift\n",
        "a.job:7:12: a name is expected before this comma",
    );
    says(
        "list: lift",
        "list: \"lift",
        "a.job:7:7: this quote is not closed on its line",
    );
    says("list: lift", "list: \"\"", "a.job:7:7: a name is not empty");
    let alone = "a.job:7:13: a name in quotes stands alone: all of the name goes between them";
    says(
        "list: lift",
        "list: slow \"lift\"",
        &alone.replace("13", "12"),
    );
    says(
        "gate: shut, open",
        "gate:",
        "a.job:1:1: the values of \"gate\" are expected behind the colon",
    );
    says(
        "shut, open",
        "shut, shut",
        "a.job:1:22: a second value \"shut\" (the first is on line 1)",
    );
    let twice = "a.job:2:10: a second variable \"gate\" (the first is on line 1)";
    says("start", "variable gate: a, b\nstart", twice);
    let twice = "a.job:7:8: a second action \"lift\" (the first is on line 4)";
    says("list", "action lift: price 1\n  then: nothing\nlist", twice);
}

#[test]
fn sections() {
    says(
        "goal: gate is open\n",
        "",
        "a.job: the job has no \"goal:\"",
    );
    says(
        "start: gate is shut\n",
        "",
        "a.job: the job has no \"start:\"",
    );
    says("list: lift\n", "", "a.job: the job has no \"list:\"");
    says(
        "list",
        "goal: nothing\nlist",
        "a.job:7:1: a second \"goal:\" (the first is on line 3)",
    );
    says(
        "  then",
        "  needs: nothing\n  then",
        "a.job:6:3: a second \"needs:\" (the first is on line 5)",
    );
    let belongs =
        "a.job:3:1: \"then:\" stands below the action that it belongs to, and here is none";
    says("goal", "then: gate is open\ngoal", belongs);
    let says_nothing = "a.job:4:1: what \"lift\" does is not said: a line \"then:\" with facts, or the word nothing";
    says("  then: gate is open\n", "", says_nothing);
    says(
        "goal: gate is open",
        "goal:",
        "a.job:3:1: facts are expected behind \"goal:\", or the word nothing",
    );
    says(
        "list: lift",
        "list:",
        "a.job:7:1: moves are expected behind \"list:\", or the word nothing",
    );
    let alone = "a.job:7:13: the word nothing stands alone; a thing of this name goes in quotes";
    says("list: lift", "list: lift, nothing", alone);
}

#[test]
fn facts() {
    says(
        "goal: gate is open",
        "goal: gate open",
        "a.job:3:7: a fact is expected, as in: gate is open",
    );
    let twice =
        "a.job:3:7: the word is stands twice here: a comma goes between two facts, and a name that has \
                 the word in quotes";
    says("goal: gate is open", "goal: gate is is open", twice);
    says(
        "goal: gate is open",
        "goal: is open",
        "a.job:3:7: a variable and a value are expected around \"is\"",
    );
    says(
        "goal: gate",
        "goal: gaet",
        "a.job:3:7: there is no variable \"gaet\"; did you mean \"gate\"?",
    );
    says(
        "goal: gate",
        "goal: turbine",
        "a.job:3:7: there is no variable \"turbine\"",
    );
    let value = "a.job:3:15: \"gate\" has no value \"opne\" (it is one of shut, open); did you mean \"open\"?";
    says("goal: gate is open", "goal: gate is opne", value);
    let again = "a.job:3:21: \"gate\" stands here twice (first on line 3)";
    says(
        "goal: gate is open",
        "goal: gate is open, gate is shut",
        again,
    );
    let start = "a.job:3:1: \"pond\" has no value at the start";
    says("start", "variable pond: full, empty\nstart", start);
}

#[test]
fn a_value_of_many() {
    let old = "shut, open\nstart: gate is shut\ngoal: gate is open";
    let new = "1, 2, 3, 4, 5, 6, 7, 8, 9\nstart: gate is far\ngoal: nothing";
    let (_, told) = said("a.job", changed(old, new).as_bytes());
    let first = told.lines().next();
    let message =
        "a.job:2:16: \"gate\" has no value \"far\" (it is one of 1, 2, 3, 4, 5, 6, 7, 8, …)";
    assert_eq!(first, Some(message));
}

#[test]
fn moves_and_prices() {
    says(
        "list: lift",
        "list: lfit",
        "a.job:7:7: there is no action \"lfit\"; did you mean \"lift\"?",
    );
    let form =
        "price and a whole number are expected behind the colon, as in: action lift: price 5";
    says(" price 5", "", &format!("a.job:4:1: {form}"));
    says("price 5", "price five", &format!("a.job:4:14: {form}"));
    says("price 5", "price -5", &format!("a.job:4:14: {form}"));
    says("price 5", "price 5.5", &format!("a.job:4:14: {form}"));
    says("price 5", "price 1,000", &format!("a.job:4:22: {form}"));
    says("price 5", "cost 5", &format!("a.job:4:14: {form}"));
}

#[test]
fn all_faults_are_told_by_their_lines_up_to_ten() {
    let moves = vec!["lfit"; 13].join("\n");
    let (_, told) = said(
        "a.job",
        changed("list: lift", &format!("list:\n{moves}")).as_bytes(),
    );
    let lines: Vec<&str> = told.lines().collect();
    assert_eq!(lines.len(), 11);
    assert_eq!(
        lines[9],
        "a.job:17:1: there is no action \"lfit\"; did you mean \"lift\"?"
    );
    assert_eq!(lines[10], "a.job: and 3 more");
}

#[test]
fn bytes_that_are_no_job() {
    let is = |bytes: &[u8], message: &str| assert_eq!(said("a", bytes), (2, message.to_string()));
    is(
        b"start: caf\xe9",
        "a:1: a letter that is not UTF-8: save the file as UTF-8",
    );
    is(b"\xff\xfes\0t\0", "a: a text in UTF-16: save it as UTF-8");
    is(
        b"\x7fELF\x02\x01\x01\0",
        "a: neither a text nor words: it holds bytes of another kind of file",
    );
    is(
        b"# nothing\n",
        "a: there is nothing in it but white space and comments",
    );
    let plan = "a: a plan alone: give the planner's text before it, as in: hollchiku shorten output.sas sas_plan";
    is(b"(lift)\n", plan);
}

#[test]
fn what_is_fine() {
    let windows = SMALL.replace('\n', "\r\n");
    let marked = format!("\u{feff}{}", windows.trim_end());
    let plain = read("a.job", SMALL.as_bytes()).map(|it| it.job);
    assert_eq!(
        read("a.job", marked.as_bytes()).map(|it| it.job).ok(),
        plain.ok()
    );
    let names = SMALL
        .replace("gate", "écluse nº 1")
        .replace("lift", "להרים");
    assert!(read("a.job", names.as_bytes()).is_ok());
    let free = "list: lift # up\naction lift: price 5\nneeds: gate is shut\nthen: gate is open\ngoal: gate is open\n\
                Start: gate is shut\nvariable gate: shut,\n  open";
    assert!(read("a.job", free.as_bytes()).is_ok_and(|it| it.check().is_ok()));
}
