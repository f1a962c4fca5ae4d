//! Shortened lists as they are shown: as tables, as jobs, as plans.

use super::{read, SMALL, WAYS};
use crate::answer::{Claim, Move, Outcome, Tally, Way};
use crate::input::{read_files, File, Lodged};
use crate::shorten::{claim, notice, shorten, Asked};
use crate::table::{filled, shown, table, Style};

const PLAIN: Style = Style {
    has_colours: false,
    columns: None,
};

/// A gate that is lifted, dropped and lifted again.
fn twice() -> Lodged {
    let drop =
        "action drop: price 1\n  needs: gate is open\n  then: gate is shut\nlist: lift, drop, lift";
    let text = SMALL.replacen("list: lift", drop, 1);
    read("a.job", text.as_bytes()).unwrap_or_else(|failure| panic!("{:?}", failure.messages))
}

#[test]
fn a_table() {
    let lodged = twice();
    let answered = shorten(&lodged, Asked::Licence).expect("every valid list is answered");
    assert_eq!(answered.way, Way::Licence(Claim::Least));
    let expected = "\
move  name  price
   1  lift      5  struck
   2  drop      1  struck
   3  lift      5  kept

lodged    3 moves, price 11
kept       1 move, price 5
saved     2 moves, price 6

Proved: no valid striking of the lodged list leaves a cheaper list, nor one as cheap and shorter,
and no move more can be struck from what is left. It may be lodged.
";
    assert_eq!(table(&lodged.job, &answered, PLAIN), expected);
}

/// The table that the first page shows is the one that is printed, but for rows that it leaves out.
#[test]
fn the_table_of_the_first_page() {
    let readme = include_str!("../../../README.md");
    let printed = include_str!("../../../examples/weir.table");
    let block = readme.split("```").find(|it| it.contains("move  name"));
    let lines = block.unwrap_or_default().trim().lines();
    let told: Vec<&str> = lines.filter(|it| *it != "  ...").collect();
    assert!(told.len() > 10);
    let missing = told
        .iter()
        .find(|it| !printed.lines().any(|line| line == **it));
    assert_eq!(missing, None);
}

#[test]
fn colours_and_effects_on_a_wide_terminal() {
    let lodged = twice();
    let answered = shorten(&lodged, Asked::Licence).expect("every valid list is answered");
    let wide = Style {
        has_colours: true,
        columns: Some(80),
    };
    let text = table(&lodged.job, &answered, wide);
    assert!(
        text.contains("\x1b[2;9m   1  lift      5  struck  gate open\x1b[0m\n"),
        "{text}"
    );
    let narrow = Style {
        has_colours: false,
        columns: Some(30),
    };
    assert!(!table(&lodged.job, &answered, narrow).contains("gate open"));
}

#[test]
fn each_way_strikes() {
    let lodged = twice();
    for asked in WAYS {
        let answered = shorten(&lodged, asked).expect("every valid list is answered");
        assert_eq!(
            (answered.left.price, answered.left.moves),
            (5, 1),
            "{asked:?}"
        );
    }
}

/// The numbers of a list are the library's, row by row.
#[test]
fn what_becomes_of_each_move() {
    let answered = shorten(&twice(), Asked::Cheaper).expect("every valid list is answered");
    let told = |price, outcome, left: [u32; 2]| {
        let [left, moves] = left;
        let left = Tally { price: left, moves };
        Move {
            price,
            outcome,
            left,
        }
    };
    let due = [
        told(5, Outcome::Struck, [0, 0]),
        told(1, Outcome::Struck, [0, 0]),
        told(5, Outcome::Kept, [5, 1]),
    ];
    assert_eq!(answered.moves, due);
    assert_eq!(answered.list, [0]);
    assert_eq!(answered.saved, Tally { price: 6, moves: 2 });
}

/// Of no other list it is said that it may be lodged.
#[test]
fn what_may_be_lodged() {
    let ways = [
        (Way::Licence(Claim::Least), true),
        (Way::Licence(Claim::Irreducible), true),
        (Way::Licence(Claim::Open(21)), false),
        (Way::Exact, false),
        (Way::Greedy, false),
        (Way::Eliminate, false),
        (Way::Cheaper, false),
    ];
    for (way, may_be) in ways {
        assert_eq!(claim(way).contains("It may be lodged."), may_be, "{way:?}");
        let is_open = matches!(way, Way::Licence(Claim::Open(_)));
        assert_eq!(notice(way).is_some(), is_open, "{way:?}");
    }
    assert!(claim(Way::Licence(Claim::Open(21))).contains("21 unmarked moves"));
}

#[test]
fn names_that_a_terminal_should_not_see() {
    assert_eq!(shown("a\x1b[2Jb\u{202e}c"), "a\u{fffd}[2Jb\u{fffd}c");
}

#[test]
fn paragraphs() {
    assert_eq!(filled("one two three", 7), "one two\nthree\n");
    assert_eq!(filled("", 7), "\n");
}

const LOCK: &[u8] = include_bytes!("../../../examples/lock.sas");
const PLAN: &[u8] = include_bytes!("../../../examples/lock.plan");

fn lock(plan: &[u8]) -> Result<Lodged, String> {
    let file = File {
        name: "lock.sas",
        bytes: LOCK.to_vec(),
    };
    let plan = File {
        name: "lock.plan",
        bytes: plan.to_vec(),
    };
    read_files(&file, Some(&plan)).map_err(|failure| failure.messages.join("\n"))
}

#[test]
fn a_planners_text_with_its_plan() {
    let lodged = lock(PLAN).expect("the plan is one of the text's");
    assert_eq!(lodged.job.list.len(), 13);
    let undoable = lock(b"; a plan\n(fill chamber)\n\n(leave boat chamber high-pound)\n");
    let checked = undoable.map(|it| it.check().map_err(|failure| failure.messages.join("\n")));
    let message = "lock.plan:4: move 2, \"leave boat chamber high-pound\", can't be done: it needs \"var0\" to be \"Atom \
                   in(boat, chamber)\", and it is \"Atom at(boat, low-pound)\"; \"var2\" to be \"NegatedAtom \
                   shut(upper-gate)\", and it is \"Atom shut(upper-gate)\"";
    assert_eq!(checked, Ok(Err(message.to_string())));
    let unknown = "lock.plan:2:2: there is no action \"light lmap\"; did you mean \"light lamp\"?";
    assert_eq!(lock(b"\n(light lmap)").err().as_deref(), Some(unknown));
    let rubbish = "lock.plan: neither a text nor words: it holds bytes of another kind of file";
    assert_eq!(lock(&[7, 0, 7]).err().as_deref(), Some(rubbish));
}

#[test]
fn a_planners_text_without_a_plan() {
    let lodged = read("lock.sas", LOCK).expect("a planner's text alone is a job without moves");
    let told = lodged
        .check()
        .map_err(|it| (it.status, it.messages.join("\n")));
    let message =
        "lock.sas: its plan is expected behind it, as in: hollchiku shorten output.sas sas_plan";
    assert_eq!(told.err(), Some((2, message.to_string())));
}

#[test]
fn a_second_file_for_a_job() {
    let job = File {
        name: "a.job",
        bytes: SMALL.into(),
    };
    let failure = read_files(&job, Some(&job))
        .err()
        .map(|it| it.messages.join("\n"));
    let message = "a.job: only a planner's text (output.sas) has its plan in a second file";
    assert_eq!(failure.as_deref(), Some(message));
}
