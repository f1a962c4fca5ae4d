//! Texts that are read into a sheet: accepted ones in any style and at the limits, and each way for
//! one to be refused, with outputs of many lengths.

use super::{case_with, of_words, Make};
use crate::cases::{Answer, Case, Service};
use crate::makers::translator::damage::{self, changed, Changed};
use crate::makers::translator::faults::{over_words, PutUnfit, PutUnsupported};
use crate::makers::translator::faults::{UNFIT, UNSUPPORTED};
use crate::makers::translator::{names, Holds, Listing, Text};
use crate::makers::{random_step, Random, Task};
use crate::rules::{Cause, MAX_TEXT};
use Due::{Refused, Same, Unknown};

pub const KINDS: &[(&str, Make)] = kinds! { random:
    "translator: accepted" => {
        let task = Task::random(random);
        Source::of(random, task).accepted(random)
    },
    "translator: accepted, 8,190 to 8,192 words" => Source::filling(random).accepted(random),
    "translator: accepted, 65,536 bytes" => with_bytes(random, MAX_TEXT),
    "translator: sheet of another kind" => of_another_kind(random),
    "translator: over 65,536 bytes" => {
        let excess = random.pick(&[1, 1, 2, MAX_TEXT]);
        with_bytes(random, MAX_TEXT + excess)
    },
    "translator: over 65,536 bytes, cut off" => too_long_and_cut_off(random),
    "translator: output too short" => output_too_short(random),
    // The line behind the last one is told, the first line too if there is none.
    "translator: lines missing" => with_text(random, |random, text| {
        let line = random_step(random, text.lines());
        let front = &text.bytes[..text.range(line).start];
        Some((front.to_vec(), broken_at(line)))
    }),
    // The last line lacks its end, or more.
    "translator: line that doesn't end" => with_text(random, |random, text| {
        let line = random_step(random, text.lines());
        let content = text.content(line);
        let end = random.size(content.start..=content.end);
        let front = &text.bytes[..random.pick(&[content.end, end])];
        Some((front.to_vec(), broken_at(line)))
    }),
    "translator: running on" => with_text(random, |random, text| {
        let any = random.filler() as u8;
        let excess: [&[u8]; 6] = [b"\n", b" ", b"0\n", b"\0", b"end_rule\n", &[any]];
        let bytes = [&text.bytes[..], random.pick(&excess)].concat();
        Some((bytes, broken_at(text.lines())))
    }),
    "translator: line that breaks the form" => with_text(random, with_broken_line),
    // A name that is changed is a name.
    "translator: name changed" => with_text(random, |random, text| {
        let line = random_line(random, text, true)?;
        Some((with_change(random, text, line, |_| true)?, Same))
    }),
    // A change that may leave the form in order: what it means then is up to the rules.
    "translator: line changed" => with_text(random, |random, text| {
        let line = random_line(random, text, false)?;
        Some((with_change(random, text, line, |way| !way.breaks)?, Unknown))
    }),
    "translator: lines out of order" => with_text(random, |random, text| {
        let (_, way) = random.pick(&damage::OF_ORDER);
        Some((way(text, random_step(random, text.lines()))?, Unknown))
    }),
    "translator: bytes overwritten" => with_text(random, overwritten),
    "translator: over 8,192 words" => unfit_in(random, Source::filling, over_words),
    "translator: unsupported twice" => unsupported_twice(random),
    "translator: unsupported and unfit" => {
        let mut source = Source::random(random);
        put_unfit(random, &mut source)?;
        let line = put_unsupported(random, &mut source)?;
        source.unsupported(random, &[line])
    },
    "translator: unsupported or unfit, and broken" => {
        let mut source = Source::random(random);
        match random.index(2) {
            0 => put_unfit(random, &mut source)?,
            _ => put_unsupported(random, &mut source).map(|_| ())?,
        }
        source.changed(random, with_broken_line)
    },
};

/// The text of a sheet of so many words is too long with most names.
const MANY_WORDS: usize = 4_000;

/// What is due for a text: the same as for the one that it was made of, a refusal for this cause at
/// this place, or what the rules say.
enum Due {
    Same,
    Refused(Cause, usize),
    Unknown,
}

/// Line numbers count from 1.
fn broken_at(line: usize) -> Due {
    Refused(Cause::Text, line + 1)
}

/// What is said, and the sheet that is due for it.
struct Source {
    listing: Listing,
    words: Vec<u32>,
}

impl Source {
    fn of(random: &mut Random, mut task: Task) -> Self {
        let listing = Listing::in_any_way(random, &mut task);
        let words = task.words();
        Source { listing, words }
    }

    /// Mostly small ones: they show as much of a refusal as others.
    fn random(random: &mut Random) -> Self {
        let task = match random.index(8) {
            0 => Task::random(random),
            _ => Task::small(random),
        };
        Source::of(random, task)
    }

    fn filling(random: &mut Random) -> Self {
        let task = Task::filling_briefly(random);
        Source::of(random, task)
    }

    /// With names of every kind, unless they would make the text too long.
    fn text(&self, random: &mut Random) -> Text {
        if self.listing.words() < MANY_WORDS {
            let text = Text::of(&self.listing, &mut |bytes| names::any(random, bytes));
            if text.bytes.len() <= MAX_TEXT {
                return text;
            }
        }
        Text::of(&self.listing, &mut names::empty)
    }

    fn accepted(&self, random: &mut Random) -> Option<Case> {
        self.changed(random, |_, text| Some((text.bytes.clone(), Same)))
    }

    /// The text with a change. It can still be too long: it is not taken then.
    fn changed(&self, random: &mut Random, change: Change) -> Option<Case> {
        let text = Some(self.text(random)).filter(|text| text.bytes.len() <= MAX_TEXT)?;
        let (bytes, due) = change(random, &text)?;
        (bytes.len() <= MAX_TEXT).then(|| self.case(random, &bytes, due))
    }

    /// The first of these lines tells of something unsupported, whatever it is.
    fn unsupported(&self, random: &mut Random, lines: &[(Holds, usize)]) -> Option<Case> {
        let text = Some(self.text(random)).filter(|text| text.bytes.len() <= MAX_TEXT)?;
        let lines = lines.iter().map(|&(holds, nth)| text.nth(holds, nth));
        let first = lines.flatten().min()?;
        let due = Refused(Cause::Unsupported, first + 1);
        Some(self.case(random, &text.bytes, due))
    }

    /// The output has room for as many words as the sheet has, often, and otherwise for fewer or
    /// more.
    fn case(&self, random: &mut Random, text: &[u8], due: Due) -> Case {
        let needed = self.words.len();
        let fewer = random.index(needed);
        let more = random.size(needed..=needed + 8);
        let rooms = [needed, needed, needed + 1, more, needed - 1, fewer, 0];
        let room = random.pick(&rooms);
        self.case_with_room(random, text, due, room)
    }

    fn case_with_room(&self, random: &mut Random, text: &[u8], due: Due, room: usize) -> Case {
        let case = case_with(random, Service::Translate, &[], &[], [room, 0]).with_text(text);
        let needed = self.words.len();
        match due {
            Unknown => case,
            Refused(cause, place) => case.refused(cause.at(place)),
            Same if text.len() > MAX_TEXT => case.refused(Cause::Text.at(0)),
            Same if room < needed => case.refused(Cause::ShortOutput.at(needed)),
            Same => case.due(Answer::translated(self.words.clone())),
        }
    }
}

/// Changes a text, unless it has no spot for it.
type Change = fn(&mut Random, &Text) -> Option<(Vec<u8>, Due)>;

fn with_text(random: &mut Random, change: Change) -> Option<Case> {
    Source::random(random).changed(random, change)
}

/// A text of so many bytes: one of its names makes up what it lacks.
fn with_bytes(random: &mut Random, count: usize) -> Option<Case> {
    let source = Source::random(random);
    let text = source.text(random);
    let missing = count.checked_sub(text.bytes.len())?;
    let name = text.nth(Holds::Name, random.index(4))?;
    let end = text.content(name).end;
    let filler = random.pick(b"a 0\r\0\xff");
    let long = text.replaced(end..end, &vec![filler; missing]);
    Some(source.case(random, &long, Same))
}

/// That the text is too long is told before what else is wrong with it.
fn too_long_and_cut_off(random: &mut Random) -> Option<Case> {
    let source = Source::random(random);
    let mut text = source.text(random).bytes;
    text.truncate(random.index(text.len()));
    text.resize(MAX_TEXT + random.size(1..=2), b'\n');
    Some(source.case(random, &text, Refused(Cause::Text, 0)))
}

/// The accepted sheets of the other kinds, as a translator would write them.
fn of_another_kind(random: &mut Random) -> Option<Case> {
    let kinds = of_words();
    let (_, make) = &kinds[random.index(kinds.len())];
    let words = make(random)?.lent.words.to_vec();
    let listing = Listing::of(&Task::of_sheet(&words)?);
    Source { listing, words }.accepted(random)
}

fn output_too_short(random: &mut Random) -> Option<Case> {
    let source = Source::random(random);
    let text = Some(source.text(random)).filter(|text| text.bytes.len() <= MAX_TEXT)?;
    let needed = source.words.len();
    let fewer = random.index(needed);
    let room = random.pick(&[needed - 1, fewer, 0]);
    Some(source.case_with_room(random, &text.bytes, Same, room))
}

/// The first, the last or a middle line that is a name, or that is none.
fn random_line(random: &mut Random, text: &Text, is_name: bool) -> Option<usize> {
    let lines = 0..text.lines();
    let lines: Vec<usize> = lines
        .filter(|&line| text.is_name(line) == is_name)
        .collect();
    (!lines.is_empty()).then(|| lines[random_step(random, lines.len())])
}

/// The text with a line changed in some such way.
fn with_change(
    random: &mut Random,
    text: &Text,
    line: usize,
    is_taken: fn(&Changed) -> bool,
) -> Option<Vec<u8>> {
    let mut ways = changed(text.line(line));
    ways.retain(is_taken);
    let way = &ways.get(random.index(ways.len().max(1)))?;
    Some(text.replaced(text.content(line), &way.content))
}

fn with_broken_line(random: &mut Random, text: &Text) -> Option<(Vec<u8>, Due)> {
    let line = random_line(random, text, false)?;
    let bytes = with_change(random, text, line, |way| way.breaks)?;
    Some((bytes, broken_at(line)))
}

/// Mostly by bytes that numbers and lines are made of.
fn overwritten(random: &mut Random, text: &Text) -> Option<(Vec<u8>, Due)> {
    let mut bytes = text.bytes.clone();
    for _ in 0..random.size(1..=2) {
        let any = random.filler() as u8;
        let byte = random.pick(&[b'0', b'1', b'9', b'-', b' ', b'\n', any]);
        let index = random.index(bytes.len());
        bytes[index] = byte;
    }
    Some((bytes, Unknown))
}

/// Puts something unsupported. Answers with the line that tells of it, once the text is written.
fn put_unsupported(random: &mut Random, source: &mut Source) -> Option<(Holds, usize)> {
    let (_, put) = random.pick(&UNSUPPORTED);
    put(&mut source.listing, random)
}

fn put_unfit(random: &mut Random, source: &mut Source) -> Option<()> {
    let (_, put) = random.pick(&UNFIT);
    put(&mut source.listing, random)
}

pub fn unsupported(random: &mut Random, put: PutUnsupported) -> Option<Case> {
    let mut source = Source::random(random);
    let line = put(&mut source.listing, random)?;
    source.unsupported(random, &[line])
}

fn unsupported_twice(random: &mut Random) -> Option<Case> {
    let mut source = Source::random(random);
    let first = put_unsupported(random, &mut source)?;
    let second = put_unsupported(random, &mut source)?;
    source.unsupported(random, &[first, second])
}

pub fn unfit(random: &mut Random, put: PutUnfit) -> Option<Case> {
    unfit_in(random, Source::random, put)
}

fn unfit_in(random: &mut Random, make: fn(&mut Random) -> Source, put: PutUnfit) -> Option<Case> {
    let mut source = make(random);
    put(&mut source.listing, random)?;
    let cause =
        |_: &mut Random, text: &Text| Some((text.bytes.clone(), Refused(Cause::NoSheet, 0)));
    source.changed(random, cause)
}
