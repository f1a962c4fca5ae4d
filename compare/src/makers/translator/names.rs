//! Names: any bytes without a line end. Many look like something else that a text has.

use super::text::{BEGIN, END, PARTS};
use crate::makers::Random;

/// Puts a name behind the bytes.
pub type Put<'a> = &'a mut dyn FnMut(&mut Vec<u8>);

/// The shortest.
pub fn empty(_: &mut Vec<u8>) {}

const USUAL: [&str; 4] = [
    "Atom lifted(gate)",
    "<none of those>",
    "NegatedAtom drained(basin, 3)",
    "var12",
];
const LIKE_NUMBERS: [&str; 8] = [
    "0",
    "1",
    "3",
    "-1",
    "0 1",
    "0 0 -1 1",
    "01",
    "18446744073709551616",
];
const MOST_BYTES: usize = 12;

pub fn any(random: &mut Random, bytes: &mut Vec<u8>) {
    match random.index(8) {
        0 => (),
        1 => bytes.extend(like_keyword(random).as_bytes()),
        2 => bytes.extend(random.pick(&LIKE_NUMBERS).as_bytes()),
        3 => put_any_bytes(random, bytes),
        4 => bytes.extend(vec![b' '; random.size(1..=2)]),
        _ => bytes.extend(random.pick(&USUAL).as_bytes()),
    }
}

fn like_keyword(random: &mut Random) -> String {
    random.pick(&[BEGIN, END]).to_string() + random.pick(&PARTS)
}

/// Zero, carriage returns and bytes above 127 among them.
fn put_any_bytes(random: &mut Random, bytes: &mut Vec<u8>) {
    for _ in 0..random.size(1..=MOST_BYTES) {
        let any = random.filler() as u8;
        let byte = random.pick(&[any, any, 0, b'\r', b'\t', b'-', u8::MAX]);
        bytes.push(if byte == b'\n' { b'_' } else { byte });
    }
}
