//! What a file holds, told by its bytes.

/// The forms in which a job comes, and what else a file may hold.
#[derive(Debug, PartialEq)]
pub enum Content {
    /// A job with names.
    Job,
    /// A text of words.
    Words,
    /// Words in the program's form.
    Binary,
    /// The output of a translator.
    Planner,
    /// A planner's plan.
    Plan,
    /// Nothing but white space and comments.
    Empty,
    /// A text in an encoding of two bytes.
    Utf16,
    /// Something else.
    Rubbish,
}

const MARK: &[u8] = b"\xef\xbb\xbf";
const UTF16_MARKS: [&[u8]; 2] = [b"\xff\xfe", b"\xfe\xff"];
/// The first line of a translator's output.
const PLANNER: &[u8] = b"begin_version";
/// A first word up to this is taken for an edition, so that a later edition is refused as one.
const MOST_EDITION: u8 = 9;

pub fn content(bytes: &[u8]) -> Content {
    if is_utf16(bytes) {
        return Content::Utf16;
    }
    if bytes.iter().copied().any(is_control) {
        let is_edition = matches!(bytes, [edition, 0, 0, 0, ..] if *edition <= MOST_EDITION);
        return if is_edition {
            Content::Binary
        } else {
            Content::Rubbish
        };
    }
    let text = text(bytes);
    if text.starts_with(PLANNER) {
        return Content::Planner;
    }
    match first_sign(text) {
        None => Content::Empty,
        Some(b'0'..=b'9' | b'-' | b'+') => Content::Words,
        Some(b'(' | b';') => Content::Plan,
        Some(_) => Content::Job,
    }
}

/// The bytes of a text, without a byte order mark.
pub fn text(bytes: &[u8]) -> &[u8] {
    bytes.strip_prefix(MARK).unwrap_or(bytes)
}

/// The bytes of a text as the library reads it: each line ends with a line end alone, the last too.
pub fn with_line_ends(bytes: &[u8]) -> Vec<u8> {
    let bytes = text(bytes);
    let behind = |at: usize| bytes.get(at + 1).copied();
    let is_needless =
        |(at, byte): &(usize, &u8)| **byte == b'\r' && matches!(behind(*at), Some(b'\n') | None);
    let kept = bytes.iter().enumerate().filter(|it| !is_needless(it));
    let mut lines: Vec<u8> = kept.map(|(_, byte)| *byte).collect();
    if lines.last().is_some_and(|it| *it != b'\n') {
        lines.push(b'\n');
    }
    lines
}

/// Whether a text begins with a mark of two bytes, or letters of ASCII alternate with zeros.
fn is_utf16(bytes: &[u8]) -> bool {
    let front = &bytes[..bytes.len().min(16)];
    let alternates = |letter: usize| {
        let is_wide = |it: &[u8]| !is_control(it[letter]) && it[1 - letter] == 0;
        front.len() >= 8 && front.chunks_exact(2).all(is_wide)
    };
    UTF16_MARKS.iter().any(|it| bytes.starts_with(it)) || alternates(0) || alternates(1)
}

/// A byte that no text holds.
fn is_control(byte: u8) -> bool {
    (byte < b' ' && !b"\t\n\r".contains(&byte)) || byte == 0x7f
}

/// The first byte outside white space and comments.
fn first_sign(text: &[u8]) -> Option<u8> {
    let lines = text.split(|it| *it == b'\n').map(<[u8]>::trim_ascii);
    let first = lines.filter_map(|it| it.first().copied());
    let mut first = first.filter(|it| *it != b'#');
    first.next()
}

#[cfg(test)]
mod tests {
    use super::*;

    #[test]
    fn each_kind() {
        assert_eq!(content(b"variable gate: shut, open\n"), Content::Job);
        assert_eq!(
            content(b"\xef\xbb\xbf# a job\r\nstart: gate is shut"),
            Content::Job
        );
        assert_eq!(content("zug: \u{e4}".as_bytes()), Content::Job);
        assert_eq!(content(b"# words\n 1 2 3"), Content::Words);
        assert_eq!(content(b"-1"), Content::Words);
        assert_eq!(content(&[1, 0, 0, 0, 1, 0, 0, 0]), Content::Binary);
        assert_eq!(content(&[2, 0, 0, 0]), Content::Binary);
        assert_eq!(content(b"begin_version\r\n3"), Content::Planner);
        assert_eq!(content(b"; a plan\n(lift)"), Content::Plan);
        assert_eq!(content(b"  # nothing\n\n"), Content::Empty);
        assert_eq!(content(b""), Content::Empty);
        assert_eq!(content(b"\xff\xfea\0b\0"), Content::Utf16);
        assert_eq!(content(b"v\0a\0r\0i\0"), Content::Utf16);
        assert_eq!(content(b"\0v\0a\0r\0i"), Content::Utf16);
        assert_eq!(content(b"\x7fELF\x02\x01\x01\0"), Content::Rubbish);
    }

    #[test]
    fn line_ends() {
        assert_eq!(with_line_ends(b"\xef\xbb\xbfa\r\nb"), b"a\nb\n");
        assert_eq!(with_line_ends(b"a\rb\r"), b"a\rb\n");
        assert_eq!(with_line_ends(b""), b"");
    }
}
