//! The words and signs of a line.

use crate::fault::{Fault, Place};

/// A word of a line, or what stands between quotes.
#[derive(Clone, Debug, PartialEq)]
pub struct Word {
    pub text: String,
    pub is_quoted: bool,
    pub place: Place,
}

impl Word {
    /// Whether it is this word, and not a name in quotes.
    pub fn is(&self, text: &str) -> bool {
        !self.is_quoted && self.text == text
    }
}

/// What a line is made of.
pub enum Token {
    Word(Word),
    Comma(Place),
    Colon(Place),
}

impl Token {
    pub fn place(&self) -> Place {
        match self {
            Token::Word(word) => word.place,
            Token::Comma(place) | Token::Colon(place) => *place,
        }
    }
}

/// Where a line is read.
struct Reader<'a> {
    line: usize,
    column: usize,
    rest: std::iter::Peekable<std::str::Chars<'a>>,
}

/// The words and signs of a line, without its comment.
pub fn tokens(line: usize, text: &str) -> Result<Vec<Token>, Fault> {
    let rest = text.chars().peekable();
    let mut reader = Reader {
        line,
        column: 1,
        rest,
    };
    let mut tokens = Vec::new();
    let mut is_behind_space = true;
    while let Some(&next) = reader.rest.peek() {
        let place = reader.place();
        match next {
            '#' if is_behind_space => break,
            ',' => tokens.push(Token::Comma(place)),
            ':' => tokens.push(Token::Colon(place)),
            '"' => {
                tokens.push(Token::Word(reader.quoted()?));
                is_behind_space = false;
                continue;
            }
            _ if !next.is_whitespace() => {
                tokens.push(Token::Word(reader.plain()));
                is_behind_space = false;
                continue;
            }
            _ => {}
        }
        is_behind_space = next.is_whitespace();
        reader.next();
    }
    Ok(tokens)
}

impl Reader<'_> {
    fn place(&self) -> Place {
        Place {
            line: self.line,
            column: self.column,
        }
    }

    fn next(&mut self) -> Option<char> {
        let next = self.rest.next();
        self.column += usize::from(next.is_some());
        next
    }

    /// A word up to white space or a sign.
    fn plain(&mut self) -> Word {
        let place = self.place();
        let mut text = String::new();
        while let Some(next) = self
            .rest
            .next_if(|it| !it.is_whitespace() && !",:\"".contains(*it))
        {
            self.column += 1;
            text.push(next);
        }
        Word {
            text,
            is_quoted: false,
            place,
        }
    }

    /// What stands between quotes. A quote or a backslash in it has a backslash before it.
    fn quoted(&mut self) -> Result<Word, Fault> {
        let place = self.place();
        self.next();
        let mut text = String::new();
        loop {
            match self.next() {
                Some('"') if text.is_empty() => {
                    return Err(Fault::at(place, "a name is not empty"))
                }
                Some('"') => {
                    return Ok(Word {
                        text,
                        is_quoted: true,
                        place,
                    })
                }
                Some('\\') => text.extend(self.next()),
                Some(other) => text.push(other),
                None => return Err(Fault::at(place, "this quote is not closed on its line")),
            }
        }
    }
}
