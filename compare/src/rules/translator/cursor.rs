//! The bytes of a text, from line to line.

use std::ops::RangeInclusive;

const LINE_END: u8 = b'\n';
const BASE: u32 = 10;

/// Where a text is being read. A read that fails leaves it in the line that breaks the form; past
/// the last line that is the number of the one that is missing.
pub struct Cursor<'a> {
    text: &'a [u8],
    at: usize,
    /// From 1.
    pub line: usize,
}

/// The line at the cursor breaks the form.
pub struct Broken;

pub type Read<T> = Result<T, Broken>;

impl<'a> Cursor<'a> {
    pub fn at_start_of(text: &'a [u8]) -> Self {
        Cursor {
            text,
            at: 0,
            line: 1,
        }
    }

    /// Nothing follows.
    pub fn end(&self) -> Read<()> {
        match self.at == self.text.len() {
            true => Ok(()),
            false => Err(Broken),
        }
    }

    pub fn line_end(&mut self) -> Read<()> {
        self.byte(LINE_END)?;
        self.line += 1;
        Ok(())
    }

    pub fn space(&mut self) -> Read<()> {
        self.byte(b' ')
    }

    fn byte(&mut self, due: u8) -> Read<()> {
        match self.text.get(self.at) {
            Some(&byte) if byte == due => {
                self.at += 1;
                Ok(())
            }
            _ => Err(Broken),
        }
    }

    /// A line of this word alone.
    pub fn keyword(&mut self, word: &str) -> Read<()> {
        if !self.text[self.at..].starts_with(word.as_bytes()) {
            return Err(Broken);
        }
        self.at += word.len();
        self.line_end()
    }

    /// Any line, a keyword too.
    pub fn name(&mut self) -> Read<()> {
        let rest = &self.text[self.at..];
        self.at += rest.iter().position(|&it| it == LINE_END).ok_or(Broken)?;
        self.line_end()
    }

    /// A number of any length, or the greatest word for one above it: no limit is as high. Whoever
    /// asks for it asks next for what ends it, so nothing stands behind a zero in front.
    pub fn number(&mut self) -> Read<u32> {
        let mut number = self.digit().ok_or(Broken)?;
        if number == 0 {
            return Ok(0);
        }
        while let Some(digit) = self.digit() {
            number = number.saturating_mul(BASE).saturating_add(digit);
        }
        Ok(number)
    }

    fn digit(&mut self) -> Option<u32> {
        let digit = u32::from(self.text.get(self.at)?.wrapping_sub(b'0'));
        if digit >= BASE {
            return None;
        }
        self.at += 1;
        Some(digit)
    }

    /// A number, or nothing where `-1` stands.
    pub fn number_unless_minus_one(&mut self) -> Read<Option<u32>> {
        if self.byte(b'-').is_ok() {
            self.byte(b'1')?;
            return Ok(None);
        }
        self.number().map(Some)
    }

    /// A line of one number.
    pub fn number_line(&mut self) -> Read<u32> {
        let number = self.number()?;
        self.line_end()?;
        Ok(number)
    }

    /// A line of one number that must be in this range; the cursor stays in the line of another.
    pub fn number_line_within(&mut self, range: RangeInclusive<u32>) -> Read<u32> {
        let number = self.number()?;
        if !range.contains(&number) {
            return Err(Broken);
        }
        self.line_end()?;
        Ok(number)
    }

    /// The two numbers of a variable and its value.
    pub fn pair(&mut self) -> Read<[u32; 2]> {
        let variable = self.number()?;
        self.space()?;
        Ok([variable, self.number()?])
    }

    pub fn pair_line(&mut self) -> Read<[u32; 2]> {
        let pair = self.pair()?;
        self.line_end()?;
        Ok(pair)
    }

    /// The end of a line that gives a variable a value: the variable, its old value unless any will
    /// do, and the new one.
    pub fn change(&mut self) -> Read<(u32, Option<u32>, u32)> {
        let variable = self.number()?;
        self.space()?;
        let old = self.number_unless_minus_one()?;
        self.space()?;
        let new = self.number_line()?;
        Ok((variable, old, new))
    }
}
