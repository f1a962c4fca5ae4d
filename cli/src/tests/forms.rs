//! The library's forms against plain Rust: words as bytes and as a text, the lines of a list, and the
//! numbers of its moves.

use super::round_trips::records;
use super::{read, WAYS};
use crate::answer::{Claim, Shortened, Tally};
use crate::job::Job;
use crate::library::{self, Mask, Reduction};
use crate::reply::NoAnswer;
use crate::sheet::{part, FIRST_ACTION};
use crate::shorten::{shorten, Asked};

/// The words of bytes.
fn words_of(bytes: &[u8]) -> Vec<u32> {
    let words = bytes.chunks_exact(4);
    let words = words.map(|it| u32::from_le_bytes([it[0], it[1], it[2], it[3]]));
    words.collect()
}

/// The sheet of a record, and its list.
fn parts_of(words: &[u32]) -> (Vec<u32>, Vec<u32>) {
    let (sheet, behind) = words.split_at(words[3] as usize);
    (sheet.to_vec(), behind[1..].to_vec())
}

#[test]
fn words_bytes_and_texts() {
    for record in records() {
        let words = words_of(&record);
        assert_eq!(library::pack(&words), Ok(record.clone()));
        let text = library::text_of(&record).expect("there is room for it");
        assert_eq!(library::read_words(&text), Ok(words.clone()));
        assert_eq!(library::open(&record), Ok(parts_of(&words)));
    }
}

/// Lists up to this length, so that no elimination takes long.
const QUICK_MOVES: usize = 60;

#[test]
fn lines() {
    for record in records() {
        let (sheet, list) = parts_of(&words_of(&record));
        if list.len() <= QUICK_MOVES {
            let lines = library::license_lines(&sheet, &list);
            assert_eq!(lines, Ok(licence(&sheet, &list).into_bytes()));
            let lines = library::shorten_lines(&sheet, &list);
            assert_eq!(lines, Ok(reduction(&sheet, &list).into_bytes()));
        }
    }
}

/// The numbers of a list by each way of striking. Of valid lists only the exact reduction refuses
/// some.
#[test]
fn numbers() {
    let mut shortened = 0;
    let records = records();
    for record in &records {
        let lodged = read("words", record).expect("records are jobs");
        if lodged.check().is_err() || lodged.job.list.len() > QUICK_MOVES {
            continue;
        }
        for asked in WAYS {
            match shorten(&lodged, asked) {
                Ok(told) => numbers_add_up(&lodged.job, &told),
                Err(_) => assert_eq!(asked, Asked::Exact),
            }
        }
        shortened += 1;
    }
    assert!(shortened * 10 >= records.len(), "{shortened}");
}

/// What is told of each move and of all against sums of the prices of actions.
fn numbers_add_up(job: &Job, told: &Shortened) {
    let price = |action: u32| job.task.actions[action as usize].price;
    let tally = |actions: &[u32]| Tally {
        price: actions.iter().map(|it| price(*it)).sum(),
        moves: actions.len() as u32,
    };
    let [mut kept, mut struck] = [Vec::new(), Vec::new()];
    for (&action, told) in job.list.iter().zip(&told.moves) {
        let side = match told.is_struck() {
            true => &mut struck,
            false => &mut kept,
        };
        side.push(action);
        assert_eq!((told.price, told.left), (price(action), tally(&kept)));
    }
    assert_eq!(told.moves.len(), job.list.len());
    assert_eq!(told.list, kept);
    let tallies = [&job.list, &kept, &struck].map(|it| tally(it));
    assert_eq!([told.lodged, told.left, told.saved], tallies);
}

fn refused(why: NoAnswer) -> String {
    match why {
        NoAnswer::Refused(refusal) => format!("refused {} {}\n", refusal.number, refusal.place),
        NoAnswer::Unknown(words) => panic!("{words}"),
    }
}

/// Whether a mask has the bit of a move, of which the lowest of the first word is the first move's.
fn has(mask: &Mask, index: usize) -> bool {
    mask[index / 64] >> (index % 64) & 1 == 1
}

/// The lines of a licence, from its numbers.
fn licence(sheet: &[u32], list: &[u32]) -> String {
    match library::license(sheet, list) {
        Err(why) => refused(why),
        Ok((left, claim)) => {
            let claim = match claim {
                Claim::Least => "least\n".to_string(),
                Claim::Irreducible => "irreducible\n".to_string(),
                Claim::Open(unmarked) => format!("open {unmarked}\n"),
            };
            claim + &report(sheet, list, &left)
        }
    }
}

/// The lines of the exact reduction.
fn reduction(sheet: &[u32], list: &[u32]) -> String {
    match library::exact(sheet, list) {
        Err(why) => refused(why),
        Ok(left) => report(sheet, list, &left),
    }
}

fn report(sheet: &[u32], list: &[u32], left: &Reduction) -> String {
    let told = |what: &str, tally: Tally| format!("{what} {} {}\n", tally.moves, tally.price);
    let lodged = library::check_list(sheet, list).expect("the list was answered");
    let marks = library::marks(sheet, list).expect("the list was answered");
    let marked = (0..list.len()).filter(|&it| has(&marks, it)).count();
    let kept = list.iter().enumerate();
    let kept = kept.filter(|(index, _)| has(&left.mask, *index));
    let rows = kept.map(|(index, &action)| {
        let price = sheet[part(sheet, FIRST_ACTION + action as usize).at];
        format!("{} {action} {price}\n", index + 1)
    });
    let rows: String = rows.collect();
    format!(
        "{}marked {marked}\n{}{rows}",
        told("lodged", lodged),
        told("kept", left.tally)
    )
}
