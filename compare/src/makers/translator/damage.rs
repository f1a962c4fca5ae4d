//! Damage of one line of a text.

use super::{Number, Text};

/// A line with other content.
pub struct Changed {
    pub name: &'static str,
    pub content: Vec<u8>,
    /// Whether it breaks the form of any line but a name's.
    pub breaks: bool,
}

/// A way to change bytes, unless they don't allow it.
type Way = fn(&[u8]) -> Option<Vec<u8>>;

/// Ways that break the form of any line but a name's.
const BREAKING: [(&str, Way); 9] = [
    ("a space in front", |line| around(b" ", line, b"")),
    ("a space behind", |line| around(b"", line, b" ")),
    ("a carriage return in front", |line| {
        around(b"\r", line, b"")
    }),
    ("a carriage return behind", |line| around(b"", line, b"\r")),
    ("a zero byte behind", |line| around(b"", line, b"\0")),
    ("a byte above 127 behind", |line| around(b"", line, b"\xff")),
    ("nothing in it", |_| Some(Vec::new())),
    ("spaces doubled", |line| spaces_as(line, b"  ")),
    ("tabs for spaces", |line| spaces_as(line, b"\t")),
];
/// Ways that may or may not.
const OTHERS: [(&str, Way); 1] = [("cut by its last byte", |line| {
    Some(line.split_last()?.1.to_vec())
})];

/// Ways to change one token. Those of an effect tell how many they are, and all other lines have a
/// number of their own, so one more or less breaks the form.
const BREAKING_OF_TOKEN: [(&str, Way); 8] = [
    ("a zero in front", |token| around(b"0", token, b"")),
    ("a plus in front", |token| around(b"+", token, b"")),
    ("a space within", |token| {
        let (front, end) = token.split_at(token.len() / 2);
        (token.len() > 1).then(|| [front, b" ", end].concat())
    }),
    ("a token doubled", |token| around(token, b" ", token)),
    ("-0", |_| Some(b"-0".to_vec())),
    ("-2", |_| Some(b"-2".to_vec())),
    ("-01", |_| Some(b"-01".to_vec())),
    ("a point behind", |token| around(b"", token, b".")),
];
/// The sign may make a layer or an old value that is due.
const OTHERS_OF_TOKEN: [(&str, Way); 12] = [
    ("a sign in front", |token| around(b"-", token, b"")),
    ("a zero behind", |token| around(b"", token, b"0")),
    ("-1", |_| Some(b"-1".to_vec())),
    ("0", |_| Some(b"0".to_vec())),
    ("1", |_| Some(b"1".to_vec())),
    ("one more", |token| sum(token, 1)),
    ("one less", |token| number(parsed(token)?.checked_sub(1)?)),
    ("2^8 more", |token| sum(token, 1 << 8)),
    ("2^32 more", |token| sum(token, 1 << 32)),
    ("2^64 more", |token| sum(token, 1 << 64)),
    ("the greatest word", |_| number(Number::from(u32::MAX))),
    ("40 digits", |_| Some(vec![b'9'; 40])),
];

fn around(front: &[u8], middle: &[u8], end: &[u8]) -> Option<Vec<u8>> {
    Some([front, middle, end].concat())
}

/// Unless there is no space.
fn spaces_as(line: &[u8], by: &[u8]) -> Option<Vec<u8>> {
    let tokens: Vec<&[u8]> = tokens(line).collect();
    (tokens.len() > 1).then(|| tokens.join(by))
}

fn tokens(line: &[u8]) -> impl Iterator<Item = &[u8]> {
    line.split(|&byte| byte == b' ')
}

fn parsed(token: &[u8]) -> Option<Number> {
    std::str::from_utf8(token).ok()?.parse().ok()
}

fn number(number: Number) -> Option<Vec<u8>> {
    Some(number.to_string().into_bytes())
}

fn sum(token: &[u8], more: Number) -> Option<Vec<u8>> {
    number(parsed(token)?.checked_add(more)?)
}

/// A line in every way that it is changed.
pub fn changed(line: &[u8]) -> Vec<Changed> {
    let mut all = Vec::new();
    for (ways, ways_of_token, breaks) in [
        (&BREAKING[..], &BREAKING_OF_TOKEN[..], true),
        (&OTHERS[..], &OTHERS_OF_TOKEN[..], false),
    ] {
        let mut add = |name, content: Option<Vec<u8>>| {
            let content = content.filter(|it| it != line);
            all.extend(content.map(|content| Changed {
                name,
                content,
                breaks,
            }));
        };
        for (name, way) in ways {
            add(name, way(line));
        }
        for (name, way) in ways_of_token {
            let mut start = 0;
            for token in tokens(line) {
                let end = start + token.len();
                let content = way(token).and_then(|it| around(&line[..start], &it, &line[end..]));
                add(name, content);
                start = end + 1;
            }
        }
    }
    all
}

/// A way to damage a text at the line with this index, unless it is the last one and the way needs
/// the next.
type WayOfText = fn(&Text, usize) -> Option<Vec<u8>>;

/// Damage of the order of lines.
pub const OF_ORDER: [(&str, WayOfText); 7] = [
    ("line dropped", |text, line| {
        Some(text.replaced(text.range(line), b""))
    }),
    ("line doubled", |text, line| {
        let end = text.range(line).end;
        Some(text.replaced(end..end, &text.bytes[text.range(line)]))
    }),
    ("empty line before", |text, line| {
        let start = text.range(line).start;
        Some(text.replaced(start..start, b"\n"))
    }),
    ("line end within", |text, line| {
        let middle = text.content(line).start + text.line(line).len() / 2;
        Some(text.replaced(middle..middle, b"\n"))
    }),
    ("joined with the next", |text, line| {
        let end = text.content(line).end;
        (line + 1 < text.lines()).then(|| text.replaced(end..end + 1, b" "))
    }),
    ("joined with the next, no space", |text, line| {
        let end = text.content(line).end;
        (line + 1 < text.lines()).then(|| text.replaced(end..end + 1, b""))
    }),
    ("exchanged with the next", |text, line| {
        let next = (line + 1 < text.lines()).then(|| text.range(line + 1))?;
        let line = text.range(line);
        let exchanged = [&text.bytes[next.clone()], &text.bytes[line.clone()]].concat();
        Some(text.replaced(line.start..next.end, &exchanged))
    }),
];
