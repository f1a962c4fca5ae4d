//! What the programs write for the bytes of their input (document 01, "Worked lists", on the
//! program; document 02 on the text that is read into a sheet).

use super::{translate, Cause, Kept, Licensed, Lodged, Refusal};
use super::{COUNT_WORD, HEADER, MAX_STEPS, MAX_WORDS};

const WORD_BYTES: usize = 4;

/// The words of input.
pub fn words_of(bytes: &[u8]) -> (Vec<u32>, &[u8]) {
    let (words, rest) = bytes.as_chunks::<WORD_BYTES>();
    let words = words.iter().map(|&word| u32::from_le_bytes(word));
    (words.collect(), rest)
}

/// The sheet, as long as word 3 says, and what stands behind it. Words that are too few for a sheet
/// count as one.
pub fn sheet_and_rest(words: &[u32]) -> (&[u32], &[u32]) {
    let count = words.get(COUNT_WORD).map_or(0, |&word| word as usize);
    match count < HEADER {
        true => (words, &[]),
        false => words.split_at(count.min(words.len())),
    }
}

/// The sheet and the plan that input holds, unless it breaks off or runs on, or says that the sheet
/// has too few words or too many. Of a plan whose length is above 255 nothing but that is known:
/// any plan that is too long stands for it.
fn read(bytes: &[u8]) -> Option<(Vec<u32>, Vec<u32>)> {
    let (words, odd_bytes) = words_of(bytes);
    let (sheet, rest) = sheet_and_rest(&words);
    let (&steps, plan) = rest.split_first()?;
    (sheet.len() <= MAX_WORDS).then_some(())?;
    if steps as usize > MAX_STEPS {
        return Some((sheet.to_vec(), vec![0; MAX_STEPS + 1]));
    }
    let is_whole = plan.len() == steps as usize && odd_bytes.is_empty();
    is_whole.then(|| (sheet.to_vec(), plan.to_vec()))
}

/// What a program writes to standard output and to standard error.
#[derive(Default, PartialEq, Eq)]
pub struct Written {
    pub output: Vec<u8>,
    pub errors: Vec<u8>,
}

/// The lines of an answer to a sheet and a plan, or of the refusal.
fn printed(bytes: &[u8], answer: impl Fn(&[u32], &[u32]) -> Result<String, Refusal>) -> Written {
    let lines = read(bytes)
        .ok_or(Cause::Length.at(0))
        .and_then(|(words, plan)| answer(&words, &plan))
        .unwrap_or_else(refused);
    Written {
        output: lines.into_bytes(),
        ..Written::default()
    }
}

/// The line of a refusal.
fn refused(refusal: Refusal) -> String {
    format!("refused {} {}\n", refusal.cause as u8, refusal.place)
}

/// The program that reads a text into a sheet. Words go to standard output, and so that nobody takes
/// a refusal for words, it goes to standard error.
pub fn written_by_translate(text: &[u8]) -> Written {
    let mut written = Written::default();
    match translate(text, MAX_WORDS) {
        Ok(words) => written.output = words.iter().flat_map(|it| it.to_le_bytes()).collect(),
        Err(refusal) => written.errors = refused(refusal).into_bytes(),
    }
    written
}

/// The program that checks a plan.
pub fn written_by_validate(bytes: &[u8]) -> Written {
    printed(bytes, |words, plan| {
        let lodged = Lodged::check(words, plan, &[])?;
        Ok(format!("lodged {} {}\n", plan.len(), lodged.cost()))
    })
}

/// A way of finding an answer: it takes the sheet, the plan and the length of the output.
pub type Way<A> = fn(&[u32], &[u32], usize) -> Result<A, Refusal>;

/// The program of the exact reduction, found this way.
pub fn written_by_shorten(bytes: &[u8], way: Way<Kept>) -> Written {
    printed(bytes, |words, plan| {
        let kept = way(words, plan, plan.len())?;
        lines_of(words, plan, &kept)
    })
}

/// The program of the licence: a line for the claim, and those of what is left.
pub fn written_by_license(bytes: &[u8], way: Way<Licensed>) -> Written {
    printed(bytes, |words, plan| {
        let Licensed { claim, kept } = way(words, plan, plan.len())?;
        Ok(format!("{claim}\n{}", lines_of(words, plan, &kept)?))
    })
}

/// The lines of a plan and of what is kept of it.
fn lines_of(words: &[u32], plan: &[u32], kept: &Kept) -> Result<String, Refusal> {
    let lodged = Lodged::check(words, plan, &[])?;
    let marked = plan.len() - lodged.unmarked();
    let mut lines = vec![
        format!("lodged {} {}\n", plan.len(), lodged.cost()),
        format!("marked {marked}\n"),
        format!("kept {} {}\n", kept.actions.len(), kept.cost),
    ];
    for step in kept.steps() {
        let cost = lodged.actions[step].cost;
        lines.push(format!("{} {} {cost}\n", step + 1, plan[step]));
    }
    Ok(lines.concat())
}
