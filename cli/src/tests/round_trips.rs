//! Words turned into a job, and that read back, are the same words.

use super::read;
use crate::job::{self, Job};
use crate::library;
use crate::sheet;
use crate::task::{Action, Fact, Task, Variable};

/// Names a file of records in the program's form, one behind the other, that are tried.
const RECORDS: &str = "HOLLCHIKU_RECORDS";

/// What the job of these bytes is read back as, again in the program's form.
fn there_and_back(bytes: &[u8]) -> Vec<u8> {
    let lodged = read("words", bytes).unwrap_or_else(|failure| panic!("{:?}", failure.messages));
    let text = job::write(&lodged.job);
    let again = read("a.job", text.as_bytes())
        .unwrap_or_else(|failure| panic!("{:?}\n{text}", failure.messages));
    assert_eq!(again.job, lodged.job);
    again
        .bytes()
        .unwrap_or_else(|failure| panic!("{:?}", failure.messages))
}

/// The records to be tried.
pub fn records() -> Vec<Vec<u8>> {
    let Some(file) = std::env::var_os(RECORDS) else {
        return Vec::new();
    };
    let bytes = std::fs::read(file).expect("the records can be read");
    let mut rest = bytes.as_slice();
    let mut records = Vec::new();
    while !rest.is_empty() {
        let (record, behind) = rest.split_at(length(rest));
        records.push(record.to_vec());
        rest = behind;
    }
    records
}

#[test]
fn records_of_the_comparison() {
    let records = records();
    for record in &records {
        let text = || {
            let text = library::text_of(record).unwrap_or_default();
            String::from_utf8_lossy(&text).into_owned()
        };
        assert!(there_and_back(record) == *record, "{}", text());
    }
    println!("round trips: {}", records.len());
}

/// How many bytes the first record has.
fn length(bytes: &[u8]) -> usize {
    let word = |at: usize| {
        u32::from_le_bytes([
            bytes[4 * at],
            bytes[4 * at + 1],
            bytes[4 * at + 2],
            bytes[4 * at + 3],
        ])
    };
    let sheet = word(3) as usize;
    4 * (sheet + 1 + word(sheet) as usize)
}

/// A text of words is read back as the same words.
#[test]
fn a_text_of_words() {
    let words = sheet::encode(&nasty().task);
    let record = library::pack(&[&words[..], &[1, 0]].concat()).expect("there is room for them");
    let text = library::text_of(&record).expect("there is room for it");
    let lodged = read("a.txt", &text).unwrap_or_else(|failure| panic!("{:?}", failure.messages));
    assert_eq!(lodged.bytes().ok(), Some(record));
}

/// A job whose names hold all that a job's text gives a meaning to.
fn nasty() -> Job {
    let names = [
        "is",
        "nothing",
        "a, b",
        "c: d",
        "# e",
        "say \"f\"",
        "g\\",
        "  h  ",
        "<script>",
        "\u{5e9}\u{5dc}",
        "i is j",
        "start now",
        "list of all that is to be done at the weir by day, and of all that is to be done by night and at noon",
        "needs",
    ];
    let values: Vec<String> = names.iter().map(|it| it.to_string()).collect();
    let variable = |name: &&str| Variable {
        name: name.to_string(),
        values: values.clone(),
        start: 1,
    };
    let action = |name: &&str| Action {
        name: name.to_string(),
        price: 7,
        needs: vec![Fact {
            variable: 0,
            value: 2,
        }],
        effects: Vec::new(),
    };
    Job {
        title: Some("Seals: \"A\", B # and C".to_string()),
        task: Task {
            variables: names.iter().map(variable).collect(),
            goal: Vec::new(),
            actions: names.iter().map(action).collect(),
        },
        list: (0..names.len() as u32).rev().collect(),
    }
}

#[test]
fn nasty_names() {
    let job = nasty();
    let text = job::write(&job);
    let (again, _) = job::read(&text).unwrap_or_else(|faults| panic!("{faults:?}\n{text}"));
    assert_eq!(again, job);
}
