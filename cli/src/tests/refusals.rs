//! Each cause of refusal once, with its file, its line and its names.

use super::{changed, read, said, SMALL};
use crate::failure::Failure;
use crate::library;
use crate::refusal::{of_list, of_planner};
use crate::reply::Refusal;
use crate::shorten::{shorten, Asked};

/// The words of a small sheet and its list: two variables, three actions, two moves.
const WORDS: &str = "\
1 2 3 31
16 2  18 2  20 1  21 4  25 3  28 3
2 3
0 1
1
5 1 0 1
2 0 258
7 0 0
2
0 1
";

/// The words with one part put in place of another are refused, as a text and in the program's
/// form, and this is said. Line 0 is that of no line.
fn says(old: &str, new: &str, line: usize, message: &str) {
    assert!(WORDS.contains(old), "{old:?} is not among the words");
    let text = WORDS.replacen(old, new, 1);
    let place = if line == 0 {
        String::new()
    } else {
        format!(":{line}")
    };
    assert_eq!(
        said("a.txt", text.as_bytes()),
        (1, format!("a.txt{place}: {message}"))
    );
    let words = library::read_words(text.as_bytes()).expect("these are words");
    assert_eq!(
        said("a", &library::pack(&words).expect("there is room for them")),
        (1, format!("a: {message}"))
    );
}

#[test]
fn the_words_are_valid() {
    assert!(read("a.txt", WORDS.as_bytes()).is_ok_and(|it| it.check().is_ok()));
}

#[test]
fn no_words() {
    let is = |text: &str, message: &str| {
        assert_eq!(said("a.txt", text.as_bytes()), (2, message.to_string()))
    };
    is(
        "1 2\n3 four\n",
        "a.txt:2: a word is expected, a whole number of 0 to 4294967295",
    );
    is(
        "-1",
        "a.txt:1: a word is expected, a whole number of 0 to 4294967295",
    );
    is(
        "# 1\r\n\r\n4294967296",
        "a.txt:3: a word is expected, a whole number of 0 to 4294967295",
    );
    is(
        &"1\n".repeat(8_450),
        "a.txt:8450: more words than a sheet and its list have",
    );
    is(
        &"1 #\n".repeat(300_000),
        "a.txt: a text of more than 1048576 bytes",
    );
}

#[test]
fn cause_1() {
    assert_eq!(
        said("a.txt", b"1 2 3"),
        (
            1,
            "a.txt: it has 3 words, and a sheet has at least 4".to_string()
        )
    );
    let broken = "a: the last word breaks off: 6 bytes are not a whole number of words";
    assert_eq!(said("a", &[1, 0, 0, 0, 1, 0]), (1, broken.to_string()));
    says(
        "31\n",
        "9000\n",
        0,
        "word 3 says that the sheet has 9000 words; a sheet has 4 to 8192",
    );
    let short =
        "word 3 says that the sheet has 40 words, and the list's length behind it; there are 34";
    says("31\n", "40\n", 0, short);
    says(
        "2\n0 1\n",
        "3\n0 1\n",
        0,
        "the list is to have 3 moves (word 31), and 2 words follow",
    );
    says(
        "2\n0 1\n",
        "1\n0 1\n",
        0,
        "the list is to have 1 moves (word 31), and 2 words follow",
    );
}

#[test]
fn causes_2_and_3() {
    says("1 2 3 31", "2 2 3 31", 0, "its edition is 2, and 1 is read");
    says(
        "1 2 3 31",
        "1 0 3 31",
        1,
        "it has 0 variables; a job has 1 to 64",
    );
    says(
        "1 2 3 31",
        "1 2 2000 31",
        1,
        "it has 2000 actions, and 1024 at most are read",
    );
}

#[test]
fn cause_4() {
    says(
        "1 2 3 31",
        "1 2 100 31",
        0,
        "its pairs take 210 words, and it has 31",
    );
    let of_sizes = "pair 0, of the domain sizes: its part begins at word 16, and the pair says 17";
    says("16 2", "17 2", 2, of_sizes);
    let of_starts =
        "pair 1, of the starting values: its part begins at word 18, and the pair says 19";
    says("18 2", "19 2", 2, of_starts);
    let of_goal = "pair 2, of the goal: its part begins at word 20, and the pair says 21";
    says("20 1", "21 1", 2, of_goal);
    let past = "pair 5, of action \"a2\": its part ends at word 37, and the sheet at word 31";
    says("28 3", "28 9", 2, past);
    let before =
        "pair 5, of action \"a2\": the last part ends at word 30, and the sheet at word 31";
    says("28 3", "28 2", 2, before);
    says(
        "16 2  18 2",
        "16 1  17 3",
        2,
        "pair 0, of the domain sizes: it has 1 words for 2 variables",
    );
    let few = "pair 3, of action \"a0\": an action has a price and a number of needs at least, and this part 1 words";
    says("21 4  25 3", "21 1  22 6", 2, few);
    says(
        "5 1 0 1",
        "5 3 0 1",
        2,
        "pair 3, of action \"a0\": it is to have 3 needs, and has 2 facts in all",
    );
}

#[test]
fn cause_5() {
    says(
        "2 3\n",
        "0 3\n",
        3,
        "\"v0\" has 0 values; a variable has 1 to 256",
    );
    says(
        "2 3\n",
        "2 257\n",
        3,
        "\"v1\" has 257 values; a variable has 1 to 256",
    );
    says(
        "0 1\n1\n",
        "0 3\n1\n",
        4,
        "\"v1\" starts at value 3, and its values are 0 to 2",
    );
}

#[test]
fn causes_6_and_7() {
    says(
        "\n1\n",
        "\n999\n",
        5,
        "word 20 is 999, a fact of the goal: there is no variable 3",
    );
    says(
        "\n1\n",
        "\n7\n",
        5,
        "word 20 is 7, a fact of the goal: \"v0\" has no value 7: its values are 0 to 1",
    );
    let needs =
        "word 23 is 9, a fact of what \"a0\" needs: \"v0\" has no value 9: its values are 0 to 1";
    says("5 1 0 1", "5 1 9 1", 6, needs);
    let does = "word 24 is 1, a fact of what \"a0\" does: \"v0\" does not come behind the variable of the fact before it";
    says("5 1 0 1", "5 0 1 1", 6, does);
    says(
        "5 1 0 1",
        "2000000 1 0 1",
        6,
        "\"a0\" costs 2000000; a price is at most 1000000",
    );
}

#[test]
fn lists() {
    let long = format!("256\n{}", "0\n".repeat(256));
    says(
        "2\n0 1\n",
        &long,
        9,
        "the list has 256 moves, and 255 at most are read",
    );
    says(
        "2\n0 1\n",
        "2\n0 7\n",
        10,
        "move 2 is action 7, and there are 3, counted from 0",
    );
    let undoable = "move 2, \"a0\", can't be done: it needs \"v0\" to be \"0\", and it is \"1\"";
    says("2\n0 1\n", "2\n0 0\n", 10, undoable);
    let unmet =
        "the goal is not met after the last move: it asks for \"v0\" to be \"1\", and it is \"0\"";
    says("2\n0 1\n", "2\n1 1\n", 5, unmet);
}

/// Where the list is too long to be read, the sheet is looked at all the same.
#[test]
fn a_wrong_sheet_before_a_long_list() {
    let text = WORDS
        .replace("1 2 3 31", "2 2 3 31")
        .replace("2\n0 1\n", "999\n");
    assert_eq!(
        said("a.txt", text.as_bytes()),
        (1, "a.txt: its edition is 2, and 1 is read".to_string())
    );
}

/// A job is refused by its names and lines.
fn says_of_job(text: &str, message: &str) {
    assert_eq!(said("a.job", text.as_bytes()), (1, message.to_string()));
}

#[test]
fn lists_of_jobs() {
    let undoable = "a.job:8: move 2, \"lift\", can't be done: it needs \"gate\" to be \"shut\", and it is \"open\"";
    says_of_job(&changed("list: lift", "list: lift,\nlift"), undoable);
    let unmet = "a.job:3: the goal is not met after the last move: it asks for \"gate\" to be \"open\", and it is \"shut\"";
    says_of_job(&changed("list: lift", "list: nothing"), unmet);
    let long = changed("list: lift", &format!("list:\n{}", "lift\n".repeat(256)));
    says_of_job(
        &long,
        "a.job:263: the list has 256 moves, and 255 at most are read",
    );
}

#[test]
fn limits_of_jobs() {
    let price = "a.job:4: \"lift\" costs 2000000; a price is at most 1000000";
    says_of_job(&changed("price 5", "price 2000000"), price);
    let high = "a.job:4: \"lift\" costs 4294967295; a price is at most 1000000";
    says_of_job(&changed("price 5", "price 99999999999"), high);
    let values: Vec<String> = (0..300).map(|it| it.to_string()).collect();
    let many = changed("shut, open", &format!("shut, open, {}", values.join(", ")));
    says_of_job(
        &many,
        "a.job:1: \"gate\" has 302 values; a variable has 1 to 256",
    );
    let variables: String = (0..64)
        .map(|v| format!("variable v{v}: 0\nstart v{v}\n"))
        .collect();
    let names = variables.replace("start", "# start");
    let starts: Vec<String> = (0..64).map(|v| format!("v{v} is 0")).collect();
    let start = format!("start: {},", starts.join(", "));
    let many = format!("{names}{}", SMALL.replacen("start:", &start, 1));
    says_of_job(&many, "a.job:129: it has 65 variables; a job has 1 to 64");
}

#[test]
fn too_many_actions() {
    let actions = |count: usize, does: &str| -> String {
        let action = |a: usize| format!("action a{a}: price 1\nthen: {does}\n");
        (0..count).map(action).collect()
    };
    let many = changed("list", &format!("{}list", actions(1_024, "nothing")));
    says_of_job(
        &many,
        "a.job:2053: it has 1025 actions, and 1024 at most are read",
    );
    let facts: Vec<String> = (0..30).map(|v| format!("v{v} is 0")).collect();
    let variables: String = (0..30).map(|v| format!("variable v{v}: 0\n")).collect();
    let start = format!("start: {},", facts.join(", "));
    let large = SMALL.replacen("start:", &start, 1).replacen(
        "list",
        &format!("{}list", actions(300, &facts.join(","))),
        1,
    );
    let message = "a.job: it is too large: its sheet has 10279 words, and a sheet has 4 to 8192";
    says_of_job(&format!("{variables}{large}"), message);
}

/// No command meets it, since room is lent for every list.
#[test]
fn cause_10() {
    let lodged = read("a.job", SMALL.as_bytes()).expect("this is a job");
    let refusal = Refusal {
        number: 10,
        place: 1,
    };
    let message = "a.job: the answer has no room, which is a fault of hollchiku itself";
    assert_eq!(of_list(refusal, &lodged).messages, [message]);
}

/// What is said where the library refuses as no table has it.
fn out_of_table(number: u64, place: u64) -> (u8, Vec<String>) {
    let message = format!(
        "hollchiku: the library's answer can't be understood: a refusal whose number or place there is not ({number} \
         {place}); this is a fault of hollchiku itself"
    );
    (2, vec![message])
}

#[test]
fn refusals_of_a_list_that_no_table_has() {
    let lodged = read("a.job", SMALL.as_bytes()).expect("this is a job");
    let words = lodged.sheet.len() as u64;
    let refusals = [
        (0, 0),
        (4, u64::MAX),
        (5, 1),
        (6, words),
        (7, 1),
        (9, 0),
        (9, 2),
        (11, 0),
        (11, 3),
        (11, u64::MAX),
        (13, 1),
        (16, 1),
        (u64::MAX, 1),
    ];
    for (number, place) in refusals {
        let Failure {
            status, messages, ..
        } = of_list(Refusal { number, place }, &lodged);
        assert_eq!((status, messages), out_of_table(number, place));
    }
}

#[test]
fn refusals_of_a_text_that_no_table_has() {
    for (number, place) in [(0, 0), (10, 1), (12, 1), (14, 0), (16, 1), (u64::MAX, 1)] {
        let Failure {
            status, messages, ..
        } = of_planner(Refusal { number, place }, "a.sas", b"begin_version\n");
        assert_eq!((status, messages), out_of_table(number, place));
    }
}

#[test]
fn cause_12() {
    let looks = changed(
        "list: lift",
        &format!(
            "action look: price 1\n  then: nothing\nlist: lift\n{}",
            "look\n".repeat(21)
        ),
    );
    let lodged = read("a.job", looks.as_bytes()).expect("this is a job");
    let failure = shorten(&lodged, Asked::Exact).expect_err("21 moves are too many");
    let message = "a.job: 21 moves are unmarked, and the exact reduction takes 20 at most; without --exact every valid list is \
                   answered";
    assert_eq!(
        (failure.status, failure.messages),
        (1, vec![message.to_string()])
    );
    assert!(shorten(&lodged, Asked::Licence).is_ok());
}

/// A planner's text.
const LOCK: &str = include_str!("../../../examples/lock.sas");

/// The text with one part put in place of another.
fn lock(old: &str, new: &str) -> String {
    assert!(LOCK.contains(old), "{old:?} is not in the text");
    LOCK.replacen(old, new, 1)
}

#[test]
fn planners_texts() {
    let is = |text: String, message: &str| {
        assert_eq!(said("a.sas", text.as_bytes()), (1, message.to_string()))
    };
    let form = "not what the form of a translator's output (version 3) has here";
    is(
        lock("begin_version\n3\n", "begin_version\n4\n"),
        &format!("a.sas:2: {form}: \"4\""),
    );
    let cut = LOCK
        .split_once("begin_state")
        .map_or("", |(front, _)| front);
    let lines = cut.lines().count();
    is(
        cut.to_string(),
        &format!("a.sas:{}: {form}: the text ends before it", lines + 1),
    );
    let long = format!("{LOCK}{}", "x".repeat(70_000));
    let length = long.len() + 1;
    is(
        long,
        &format!("a.sas: a planner's text of {length} bytes; at most 65536 are read"),
    );
    let axiom = "a.sas:10: an axiom, a derived variable or an effect with a condition: a job sheet can't say it: \"0\"";
    is(lock("var0\n-1", "var0\n0"), axiom);
    let large = "a.sas: its task is too large for a job sheet, or has a variable twice in one group of facts; docs/SCOPE.md has \
                 the limits";
    is(lock("begin_state\n0", "begin_state\n9"), large);
}
