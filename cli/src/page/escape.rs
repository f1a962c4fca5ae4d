//! Texts that others wrote, made harmless before they stand in the page.
//!
//! Names come from the job's file and may hold anything. Nothing reaches the page but through one
//! of these wrappers.

use std::fmt::{Display, Formatter, Result, Write};

/// What is shown for a character that is not to be shown.
const HARMLESS: &str = "\u{FFFD}";

/// Between these two a name has the direction of its own letters.
const ISOLATE: char = '\u{2068}';
const END_OF_ISOLATE: char = '\u{2069}';

/// A text, in an element or in a quoted attribute.
pub struct Text<'a>(pub &'a str);

/// A name in an element of HTML. One that is written from right to left leaves its neighbours where
/// they are.
pub struct Name<'a>(pub &'a str);

/// A name where no element can isolate it: in titles and drawings.
pub struct Isolated<'a>(pub &'a str);

/// A text of many lines: its line ends and tabs stay.
pub struct Lines<'a>(pub &'a str);

impl Display for Text<'_> {
    fn fmt(&self, out: &mut Formatter) -> Result {
        put(self.0, stand_in, out)
    }
}

impl Display for Name<'_> {
    fn fmt(&self, out: &mut Formatter) -> Result {
        write!(out, "<bdi>{}</bdi>", Text(self.0))
    }
}

impl Display for Isolated<'_> {
    fn fmt(&self, out: &mut Formatter) -> Result {
        write!(out, "{ISOLATE}{}{END_OF_ISOLATE}", Text(self.0))
    }
}

impl Display for Lines<'_> {
    fn fmt(&self, out: &mut Formatter) -> Result {
        put(
            self.0,
            |character| {
                if matches!(character, '\n' | '\t') {
                    None
                } else {
                    stand_in(character)
                }
            },
            out,
        )
    }
}

/// Writes a text with the stand-ins of its characters. Runs without any are written whole, for
/// speed.
fn put(text: &str, stand_in: impl Fn(char) -> Option<&'static str>, out: &mut Formatter) -> Result {
    let mut written = 0;
    for (at, character) in text.char_indices() {
        if let Some(instead) = stand_in(character) {
            out.write_str(&text[written..at])?;
            out.write_str(instead)?;
            written = at + character.len_utf8();
        }
    }
    out.write_str(&text[written..])
}

/// What is written for a character, if not the character itself.
///
/// Embeddings, overrides and isolates are taken out, since one of them could end the isolation of
/// its name. The marks that say how a single letter reads stay.
fn stand_in(character: char) -> Option<&'static str> {
    match character {
        '&' => Some("&amp;"),
        '<' => Some("&lt;"),
        '>' => Some("&gt;"),
        '"' => Some("&quot;"),
        '\'' => Some("&#39;"),
        '\u{2028}'..='\u{202E}' | '\u{2066}'..='\u{2069}' => Some(HARMLESS),
        other if other.is_control() => Some(HARMLESS),
        _ => None,
    }
}

/// A number in groups of three digits, as people read prices.
pub struct Grouped(pub u64);

impl Display for Grouped {
    fn fmt(&self, out: &mut Formatter) -> Result {
        let digits = self.0.to_string();
        for (at, digit) in digits.chars().enumerate() {
            if at > 0 && (digits.len() - at) % 3 == 0 {
                out.write_char(',')?;
            }
            out.write_char(digit)?;
        }
        Ok(())
    }
}

#[cfg(test)]
mod tests {
    use super::*;

    #[test]
    fn marks_of_html_are_spelt_out() {
        assert_eq!(
            Text("<script>&amp;\"'").to_string(),
            "&lt;script&gt;&amp;amp;&quot;&#39;"
        );
        assert_eq!(Text("</style>").to_string(), "&lt;/style&gt;");
    }

    #[test]
    fn control_characters_are_replaced() {
        for nasty in [
            '\0', '\t', '\n', '\r', '\u{1B}', '\u{7F}', '\u{85}', '\u{9F}',
        ] {
            assert_eq!(Text(&format!("a{nasty}b")).to_string(), "a\u{FFFD}b");
        }
    }

    #[test]
    fn what_turns_the_direction_is_replaced() {
        for nasty in ['\u{2029}', '\u{202A}', '\u{202E}', '\u{2066}', '\u{2069}'] {
            assert_eq!(Text(&format!("a{nasty}b")).to_string(), "a\u{FFFD}b");
        }
    }

    #[test]
    fn names_of_any_script_stay_and_are_isolated() {
        assert_eq!(
            Name("שער \u{200F}א").to_string(),
            "<bdi>שער \u{200F}א</bdi>"
        );
        assert_eq!(Name("a<b").to_string(), "<bdi>a&lt;b</bdi>");
        assert_eq!(
            Isolated("بوابة\u{202E}").to_string(),
            "\u{2068}بوابة\u{FFFD}\u{2069}"
        );
    }

    #[test]
    fn lines_keep_their_ends_and_tabs() {
        assert_eq!(
            Lines("1 2\t# <a>\n\u{7}3\n").to_string(),
            "1 2\t# &lt;a&gt;\n\u{FFFD}3\n"
        );
    }

    #[test]
    fn digits_stand_in_threes() {
        let shown: Vec<String> = [0, 999, 1000, 255_000_000]
            .map(|number| Grouped(number).to_string())
            .into();
        assert_eq!(shown, ["0", "999", "1,000", "255,000,000"]);
    }
}
