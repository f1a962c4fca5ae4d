//! The text that Fast Downward's translator writes, version 3, read into a sheet (document 02, the
//! request for sheets from Fast Downward). The text is read once, from front to back; what the
//! later checks ask for is noted on the way, since a line at the end may still break the form.

mod cursor;
mod draft;
mod reader;

use super::{refuse, Cause, Refusal};
use reader::Reader;

pub const MAX_TEXT: usize = 65_536;

/// The words of the sheet that a text means, for an output of this many words. Refusals 13, 14, 15
/// and 10. Not inlined, so that its instructions can be counted from outside.
#[inline(never)]
pub fn translate(text: &[u8], room: usize) -> Result<Vec<u32>, Refusal> {
    refuse(Cause::Text, (text.len() > MAX_TEXT).then_some(0))?;
    let mut reader = Reader::of(text);
    let broken = reader.read().is_err();
    refuse(Cause::Text, broken.then_some(reader.line()))?;
    refuse(Cause::Unsupported, reader.first_unsupported())?;
    let words = reader.into_words().ok_or(Cause::NoSheet.at(0))?;
    let needed = words.len();
    refuse(Cause::ShortOutput, (room < needed).then_some(needed))?;
    Ok(words)
}
