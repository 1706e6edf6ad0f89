//! One line of a text journal.

mod expected;
mod quoted;

use super::hint;
use super::wrong::{Fault, Needed, Wrong};
use crate::answer::Answer;
use crate::letters::Letter;
use crate::spelling;
use rotundaaloe::Record;
use rotundaaloe::limits::MOST_TEXT;

const ARROW: &[u8] = b"->";

fn fault<'a, T>(at: usize, wrong: Wrong<'a>) -> Result<T, Fault<'a>> {
    Err(Fault { at, wrong })
}

pub enum Found<'a> {
    Nothing,
    Comment(&'a [u8]),
    Call(CallLine<'a>),
}

/// A call's line.
pub struct CallLine<'a> {
    /// Where the letter stands.
    pub at: usize,
    letter: Letter,
    fields: [u16; 3],
    text: Vec<u8>,
    pub expected: Option<Answer>,
    pub comment: Option<&'a [u8]>,
}

impl CallLine<'_> {
    pub fn record(&self) -> Record<'_> {
        let [a, b, c] = self.fields;
        Record {
            letter: self.letter.byte(),
            a,
            b,
            c,
            text: &self.text,
        }
    }
}

/// Reads a line without its end.
pub fn read(line: &[u8]) -> Result<Found<'_>, Fault<'_>> {
    found(line).map_err(|fault| named(line, fault))
}

/// A byte that no text has is named, whatever the word around it is taken for.
fn named<'a>(line: &'a [u8], fault: Fault<'a>) -> Fault<'a> {
    let Fault { at, wrong } = fault;
    let stray = match wrong {
        Wrong::Control(_) => None,
        _ => hint::stray(word_at(line, at)),
    };
    match stray {
        Some((place, name)) => Fault {
            at: at + place,
            wrong: Wrong::Always(name),
        },
        None => Fault { at, wrong },
    }
}

fn found(line: &[u8]) -> Result<Found<'_>, Fault<'_>> {
    let mut scanner = Scanner {
        line,
        at: 0,
        end: 0,
    };
    let Some(word) = scanner.word() else {
        return Ok(match scanner.comment()? {
            Some(comment) => Found::Comment(comment),
            None => Found::Nothing,
        });
    };
    let letter = letter(&word)?;
    let fields = scanner.fields(letter)?;
    let text = match letter.has_text() {
        true => scanner.text(letter)?,
        false => Vec::new(),
    };
    let expected = scanner.expected(letter)?;
    Ok(Found::Call(CallLine {
        at: word.at,
        letter,
        fields,
        text,
        expected,
        comment: scanner.comment()?.filter(|comment| !comment.is_empty()),
    }))
}

struct Word<'a> {
    at: usize,
    bytes: &'a [u8],
}

/// The word that begins at a place, empty where none does.
fn word_at(line: &[u8], at: usize) -> &[u8] {
    let rest = &line[at..];
    let ends = |byte: &u8| matches!(byte, b' ' | b'\t' | b'#');
    let length = rest.iter().position(ends).unwrap_or(rest.len());
    &rest[..length]
}

fn letter<'a>(word: &Word<'a>) -> Result<Letter, Fault<'a>> {
    if let [byte] = word.bytes
        && let Some(letter) = Letter::of(*byte)
    {
        return Ok(letter);
    }
    let (place, wrong) = match word.bytes {
        bytes if hint::begins_comment(bytes) => (0, Wrong::Always(hint::COMMENT)),
        [byte, rest @ ..] if Letter::of(*byte).is_some() => match hint::glued(rest) {
            Some(wrong) => (1, Wrong::Always(wrong)),
            None => (0, Wrong::NoLetter(word.bytes)),
        },
        bytes => (0, Wrong::NoLetter(bytes)),
    };
    fault(word.at + place, wrong)
}

/// A decimal number of 16 bits, or what is wrong with it; `other` where it is
/// no number at all.
fn number<'a>(word: &Word<'a>, other: Wrong<'a>) -> Result<u16, Fault<'a>> {
    let Word { at, bytes } = *word;
    let digits = std::str::from_utf8(bytes).unwrap_or_default();
    if digits.is_empty() || !digits.bytes().all(|digit| digit.is_ascii_digit()) {
        return no_number(word, other);
    }
    if digits.starts_with('0') && digits != "0" {
        return fault(at, Wrong::LeadingZero(bytes));
    }
    match digits.parse() {
        Ok(number) => Ok(number),
        Err(_) => fault(at, Wrong::TooLarge(bytes)),
    }
}

/// What stands behind digits may tell what is meant.
fn no_number<'a, T>(word: &Word<'a>, other: Wrong<'a>) -> Result<T, Fault<'a>> {
    let digits = word.bytes.iter().take_while(|byte| byte.is_ascii_digit());
    let place = digits.count();
    match &word.bytes[place..] {
        [b',', ..] if place > 0 => {
            let wrong = Wrong::Always("numbers have blanks between them, and no commas");
            fault(word.at + place, wrong)
        }
        rest if hint::begins_comment(rest) => fault(word.at + place, Wrong::Always(hint::COMMENT)),
        rest if place > 0 && rest.starts_with(ARROW) => {
            fault(word.at + place, Wrong::Always(hint::NO_BLANK_BEFORE_ARROW))
        }
        _ => fault(word.at, other),
    }
}

/// Whether a text of this length fits a record.
fn fitting<'a>(word: &Word<'a>, length: usize) -> Result<(), Fault<'a>> {
    match length {
        1..=MOST_TEXT => Ok(()),
        _ => fault(word.at, Wrong::TextLength(length)),
    }
}

struct Scanner<'a> {
    line: &'a [u8],
    /// The next byte.
    at: usize,
    /// Where the last word ended.
    end: usize,
}

impl<'a> Scanner<'a> {
    fn rest(&self) -> &'a [u8] {
        &self.line[self.at..]
    }

    fn skip_blanks(&mut self) {
        let blanks = self.rest().iter();
        self.at += blanks
            .take_while(|byte| matches!(byte, b' ' | b'\t'))
            .count();
    }

    /// The next word without taking it. `None` at a comment or the line's end.
    fn peek(&mut self) -> Option<Word<'a>> {
        self.skip_blanks();
        let bytes = word_at(self.line, self.at);
        let at = self.at;
        (!bytes.is_empty()).then_some(Word { at, bytes })
    }

    fn word(&mut self) -> Option<Word<'a>> {
        let word = self.peek()?;
        self.advance(word.bytes.len());
        Some(word)
    }

    /// Takes a word's bytes.
    fn advance(&mut self, length: usize) {
        self.at += length;
        self.end = self.at;
    }

    /// What follows `#`, where a comment is next. It has no NUL, and no CR: where
    /// lines end with CR alone, a comment would swallow the calls behind it.
    fn comment(&mut self) -> Result<Option<&'a [u8]>, Fault<'a>> {
        self.skip_blanks();
        let Some(comment) = self.rest().strip_prefix(b"#") else {
            return Ok(None);
        };
        match hint::stray(comment) {
            Some((place, name)) => fault(self.at + 1 + place, Wrong::Always(name)),
            None => Ok(Some(comment.trim_ascii())),
        }
    }

    fn fields(&mut self, letter: Letter) -> Result<[u16; 3], Fault<'a>> {
        let mut values = [0; 3];
        for (place, (field, value)) in letter.fields().iter().zip(&mut values).enumerate() {
            *value = self.field(Needed {
                letter,
                place,
                field: *field,
            })?;
        }
        Ok(values)
    }

    fn field(&mut self, needed: Needed) -> Result<u16, Fault<'a>> {
        match self.peek() {
            None => fault(self.end, Wrong::NoField(needed)),
            Some(word) if word.bytes.starts_with(ARROW) => fault(self.end, Wrong::NoField(needed)),
            Some(word) => {
                self.advance(word.bytes.len());
                number(&word, Wrong::NoNumber(word.bytes, needed))
            }
        }
    }

    fn text(&mut self, letter: Letter) -> Result<Vec<u8>, Fault<'a>> {
        let word = self.peek();
        let Some(word) = word.filter(|word| !word.bytes.starts_with(ARROW)) else {
            return fault(self.end, Wrong::NoText(letter));
        };
        match word.bytes[0] {
            b'"' => {
                let text = self.quoted()?;
                fitting(&word, text.len())?;
                Ok(text)
            }
            _ => {
                fitting(&word, word.bytes.len())?;
                self.bare(&word)
            }
        }
    }

    /// A bare text is a formula, so that a slip is told here.
    fn bare(&mut self, word: &Word<'a>) -> Result<Vec<u8>, Fault<'a>> {
        self.advance(word.bytes.len());
        let Some((place, wrong)) = spelling::fault(word.bytes) else {
            return Ok(word.bytes.to_vec());
        };
        let rest = &word.bytes[place..];
        let wrong = match rest {
            _ if rest.starts_with(ARROW) => Wrong::Always(hint::NO_BLANK_BEFORE_ARROW),
            _ if hint::begins_comment(rest) => Wrong::Always(hint::COMMENT),
            [] if self.peek().is_some_and(|next| next.bytes != ARROW) => {
                Wrong::NoFormula(spelling::NO_BLANKS)
            }
            _ => Wrong::NoFormula(wrong),
        };
        fault(word.at + place, wrong)
    }
}
