//! A text in quotes.

use super::{Scanner, fault};
use crate::text::wrong::{Fault, Wrong};

impl<'a> Scanner<'a> {
    /// The bytes that a quoted text stands for.
    pub(super) fn quoted(&mut self) -> Result<Vec<u8>, Fault<'a>> {
        let opening = self.at;
        self.at += 1;
        let mut text = Vec::new();
        loop {
            match self.rest() {
                [] => return fault(opening, Wrong::Always("the quote isn't closed")),
                [b'"', ..] => break,
                [b'\\', ..] => text.push(self.escape()?),
                _ => text.extend_from_slice(self.character()?),
            }
        }
        self.advance(1);
        match self.rest() {
            [] | [b' ' | b'\t' | b'#', ..] => Ok(text),
            _ => {
                let wrong = Wrong::Always("a blank is missing after the closing quote");
                fault(self.at, wrong)
            }
        }
    }

    fn escape(&mut self) -> Result<u8, Fault<'a>> {
        let digit = |byte: u8| char::from(byte).to_digit(16).map(|digit| digit as u8);
        let (byte, length) = match *self.rest() {
            [_, byte @ (b'"' | b'\\'), ..] => (Some(byte), 2),
            [_, b'x', high, low, ..] => {
                let byte = digit(high).zip(digit(low));
                (byte.map(|(high, low)| high * 16 + low), 4)
            }
            _ => (None, 0),
        };
        let Some(byte) = byte else {
            let words = r#"no such escape: one of \" \\ \xHH, HH two hexadecimal digits"#;
            return fault(self.at, Wrong::Always(words));
        };
        self.at += length;
        Ok(byte)
    }

    /// The bytes of a character that stands for itself in quotes.
    fn character(&mut self) -> Result<&'a [u8], Fault<'a>> {
        /// The most bytes of a character in UTF-8.
        const MOST: usize = 4;
        let rest = self.rest();
        let byte = rest[0];
        let mut chunks = rest[..rest.len().min(MOST)].utf8_chunks();
        let valid = chunks.next().map_or("", |chunk| chunk.valid());
        let Some(character) = valid.chars().next() else {
            return fault(self.at, Wrong::NoUtf8(byte));
        };
        if character.is_ascii_control() {
            return fault(self.at, Wrong::Control(byte));
        }
        let length = character.len_utf8();
        self.at += length;
        Ok(&rest[..length])
    }
}
