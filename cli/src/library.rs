//! The proved library: its exports, lent what they ask for. Every answer of the front end comes
//! from here; `reply` says what the words of one mean.

use crate::answer::{Claim, Move, Tally};
use crate::limits::{MOST_MOVES, MOST_VARIABLES, MOST_WORDS, WORD_BYTES};
use crate::reply::{self, NoAnswer, NoWords, Unknown};
use crate::sheet;

/// Declares the exports: the slices that one reads, those that it writes to, its numbers, its last
/// slice. A slice passes as its pointer and then its length. Nothing checks the declarations
/// against the library's source.
macro_rules! exports {
    ($($name:ident(
        $($read:ident: $read_word:ty),*; $($written:ident: $word:ty),*; $($number:ident),*; $($last:ident: $last_word:ty)?
    ) $(-> $type:ty)?;)*) => {
        mod linked {
            extern "C" {
                $(pub fn $name(
                    $(_: *const $read_word, _: usize,)*
                    $(_: *mut $word, _: usize,)*
                    $($number: u32,)*
                    $(_: *mut $last_word, _: usize,)?
                ) $(-> $type)?;)*
            }
        }

        $(fn $name(
            $($read: &[$read_word],)*
            $($written: &mut [$word],)*
            $($number: u32,)*
            $($last: &mut [$last_word],)?
        ) $(-> $type)? {
            // SAFETY: every pointer is good for its length, and what is borrowed mutably overlaps
            // nothing.
            unsafe {
                linked::$name(
                    $($read.as_ptr(), $read.len(),)*
                    $($written.as_mut_ptr(), $written.len(),)*
                    $($number,)*
                    $($last.as_mut_ptr(), $last.len(),)?
                )
            }
        })*
    };
}

exports! {
    hollchiku_check_plan(sheet: u32, list: u32; state: u32; ; out: u64);
    hollchiku_course(sheet: u32, list: u32; states: u32; ; out: u64);
    hollchiku_moves(sheet: u32, list: u32, kept: u64, marked: u64; rows: u32; ; out: u64);
    hollchiku_marks(sheet: u32, list: u32; mask: u64; ; out: u64);
    hollchiku_eliminate(sheet: u32, list: u32; output: u32, mask: u64; ; out: u64);
    hollchiku_greedy(sheet: u32, list: u32; output: u32, mask: u64; ; out: u64);
    hollchiku_cheaper_left(sheet: u32, list: u32; output: u32, mask: u64; ; out: u64);
    hollchiku_exact(sheet: u32, list: u32; output: u32, mask: u64; ; out: u64);
    hollchiku_license(sheet: u32, list: u32; output: u32, mask: u64; ; out: u64);
    hollchiku_translate(text: u8; sheet: u32; ; out: u64);
    hollchiku_read_words(text: u8; words: u32; ; out: u64);
    hollchiku_open(bytes: u8; words: u32; ; out: u64);
    hollchiku_pack(words: u32; bytes: u8; ; ) -> u64;
    hollchiku_text_of(bytes: u8; text: u8; ; ) -> u64;
    hollchiku_license_lines(sheet: u32, list: u32; text: u8; ; ) -> u64;
    hollchiku_shorten_lines(sheet: u32, list: u32; text: u8; ; ) -> u64;
}

/// How many words a mask has.
const MASK: usize = 4;
/// How many words a text of words has at most: a sheet, a list with its length, and one more.
const WORDS: usize = MOST_WORDS + 1 + MOST_MOVES + 1;
/// How many bytes the text of so many words has at most.
const TEXT: usize = 131_072;
/// How many bytes the lines of a list have at most: four, and one for each move.
const LINES: usize = 64 * (4 + MOST_MOVES);

/// Some of a list's moves, as the library tells them.
pub type Mask = [u64; MASK];

/// What a service that strikes leaves.
pub struct Reduction {
    /// The kept moves.
    pub mask: Mask,
    /// Their actions.
    pub list: Vec<u32>,
    pub tally: Tally,
}

pub fn check_list(sheet: &[u32], list: &[u32]) -> Result<Tally, NoAnswer> {
    let (mut state, mut out) = ([0; MOST_VARIABLES], [0; 4]);
    hollchiku_check_plan(sheet, list, &mut state, &mut out);
    let [number, place, price, moves] = out;
    reply::answered([number, place], reply::OF_VALID)?;
    Ok(reply::tally([price, moves], list.len())?)
}

/// The states along a list, each a value for each variable: at the start, and behind each move up to
/// the first that can't be done.
pub fn course(sheet: &[u32], list: &[u32]) -> Result<Vec<Vec<u32>>, NoAnswer> {
    let most = list.len() + 1;
    let (mut states, mut out) = (vec![0; MOST_VARIABLES * most], [0; 3]);
    hollchiku_course(sheet, list, &mut states, &mut out);
    let [number, place, count] = out;
    reply::answered([number, place], reply::OF_READ)?;
    let count = reply::count(count, most)?;
    let states = states.chunks_exact(sheet::variables(sheet));
    Ok(states.take(count).map(<[u32]>::to_vec).collect())
}

/// The marked moves.
pub fn marks(sheet: &[u32], list: &[u32]) -> Result<Mask, NoAnswer> {
    let (mut mask, mut out) = ([0; MASK], [0; 2]);
    hollchiku_marks(sheet, list, &mut mask, &mut out);
    reply::answered(out, reply::OF_VALID)?;
    Ok(mask)
}

/// The moves of a list of which these are kept and these are marked, and what the others come to.
pub fn moves(
    sheet: &[u32],
    list: &[u32],
    kept: &Mask,
    marked: &Mask,
) -> Result<(Vec<Move>, Tally), NoAnswer> {
    let (mut rows, mut out) = (vec![[0; reply::ROW]; list.len()], [0; 4]);
    hollchiku_moves(sheet, list, kept, marked, rows.as_flattened_mut(), &mut out);
    let [number, place, price, moves] = out;
    reply::answered([number, place], reply::OF_READ)?;
    let saved = reply::tally([price, moves], list.len())?;
    Ok((reply::moves(&rows)?, saved))
}

pub fn eliminate(sheet: &[u32], list: &[u32]) -> Result<Reduction, NoAnswer> {
    struck(hollchiku_eliminate, sheet, list)
}

pub fn greedy(sheet: &[u32], list: &[u32]) -> Result<Reduction, NoAnswer> {
    struck(hollchiku_greedy, sheet, list)
}

/// What the cheaper of both eliminations leaves.
pub fn cheaper(sheet: &[u32], list: &[u32]) -> Result<Reduction, NoAnswer> {
    struck(hollchiku_cheaper_left, sheet, list)
}

pub fn exact(sheet: &[u32], list: &[u32]) -> Result<Reduction, NoAnswer> {
    let (reduction, _) = reduce(hollchiku_exact, reply::OF_EXACT, sheet, list)?;
    Ok(reduction)
}

pub fn license(sheet: &[u32], list: &[u32]) -> Result<(Reduction, Claim), NoAnswer> {
    let (reduction, claim) = reduce(hollchiku_license, reply::OF_STRIKING, sheet, list)?;
    Ok((reduction, reply::claim(claim)?))
}

/// The words of the sheet that a translator's text means.
pub fn translate(text: &[u8]) -> Result<Vec<u32>, NoAnswer> {
    let (mut sheet, mut out) = (vec![0; MOST_WORDS], [0; 3]);
    hollchiku_translate(text, &mut sheet, &mut out);
    let [number, place, count] = out;
    reply::answered([number, place], reply::OF_TEXT)?;
    sheet.truncate(reply::count(count, MOST_WORDS)?);
    Ok(sheet)
}

/// The words of a text of words.
pub fn read_words(text: &[u8]) -> Result<Vec<u32>, NoWords> {
    let (mut words, mut out) = (vec![0; WORDS], [0; 2]);
    hollchiku_read_words(text, &mut words, &mut out);
    words.truncate(reply::words(out, WORDS)?);
    Ok(words)
}

/// The sheet and the list that bytes in the program's form are.
pub fn open(bytes: &[u8]) -> Result<(Vec<u32>, Vec<u32>), NoAnswer> {
    let (mut words, mut out) = (vec![0; WORDS], [0; 4]);
    hollchiku_open(bytes, &mut words, &mut out);
    let [number, place, sheet, list] = out;
    reply::answered([number, place], reply::OF_FORM)?;
    let [sheet, list] = reply::lengths([sheet, list], WORDS)?;
    let behind = words[sheet + 1..][..list].to_vec();
    words.truncate(sheet);
    Ok((words, behind))
}

/// Words in the program's form.
pub fn pack(words: &[u32]) -> Result<Vec<u8>, Unknown> {
    written(WORD_BYTES * words.len(), |bytes| {
        hollchiku_pack(words, bytes)
    })
}

/// The text of words that bytes in the program's form are.
pub fn text_of(bytes: &[u8]) -> Result<Vec<u8>, Unknown> {
    written(TEXT, |text| hollchiku_text_of(bytes, text))
}

/// The lines of document 01 for a licence, and for the exact reduction.
pub fn license_lines(sheet: &[u32], list: &[u32]) -> Result<Vec<u8>, Unknown> {
    written(LINES, |text| hollchiku_license_lines(sheet, list, text))
}

pub fn shorten_lines(sheet: &[u32], list: &[u32]) -> Result<Vec<u8>, Unknown> {
    written(LINES, |text| hollchiku_shorten_lines(sheet, list, text))
}

/// The bytes that an export writes to the front of so many.
fn written(room: usize, write: impl FnOnce(&mut [u8]) -> u64) -> Result<Vec<u8>, Unknown> {
    let mut bytes = vec![0; room];
    let count = write(&mut bytes);
    bytes.truncate(reply::count(count, room)?);
    Ok(bytes)
}

type Reduce = fn(&[u32], &[u32], &mut [u32], &mut [u64], &mut [u64]);

/// What an elimination leaves.
fn struck(by: Reduce, sheet: &[u32], list: &[u32]) -> Result<Reduction, NoAnswer> {
    let (reduction, _) = reduce(by, reply::OF_STRIKING, sheet, list)?;
    Ok(reduction)
}

/// What a service that strikes and refuses for these causes answers, and the two words that the
/// licence puts behind that.
fn reduce(
    by: Reduce,
    causes: &[u64],
    sheet: &[u32],
    list: &[u32],
) -> Result<(Reduction, [u64; 2]), NoAnswer> {
    let (mut left, mut mask, mut out) = (vec![0; list.len()], [0; MASK], [0; 6]);
    by(sheet, list, &mut left, &mut mask, &mut out);
    let [number, place, price, moves, behind @ ..] = out;
    reply::answered([number, place], causes)?;
    let tally = reply::tally([price, moves], list.len())?;
    left.truncate(tally.moves as usize);
    let list = left;
    Ok((Reduction { mask, list, tally }, behind))
}
