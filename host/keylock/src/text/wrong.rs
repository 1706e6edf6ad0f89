//! What can be wrong with a line, in words. Most mistakes of a long text are only
//! counted, so the words are made of those that are shown.

use super::hint;
use crate::figures::grouped;
use crate::letters::{self, Field, FieldWords, Letter};
use crate::shown::{escaped, start};
use rotundaaloe::limits::{JOURNAL_BYTES, MOST_TEXT};
use rotundaaloe::refusal::Append;
use rotundaaloe::{Lock, Refusal};

/// What is wrong, and at which byte of the line.
pub struct Fault<'a> {
    pub at: usize,
    pub wrong: Wrong<'a>,
}

/// What is wrong. Words are those of the line.
pub enum Wrong<'a> {
    /// What is told in the same words wherever it is.
    Always(&'static str),
    NoLetter(&'a [u8]),
    NoField(Needed),
    NoNumber(&'a [u8], Needed),
    LeadingZero(&'a [u8]),
    TooLarge(&'a [u8]),
    NoText(Letter),
    TextLength(usize),
    NoFormula(&'static str),
    NoUtf8(u8),
    Control(u8),
    TooMuch(Letter),
    /// What stands for an operator, and where blanks are around it.
    Operator(&'static str),
    NoArrow(&'a [u8]),
    /// A refusal's first number without the second.
    NoSecondNumber(u16),
    /// The calls that the journal holds.
    Full(usize),
    Refused(Append),
}

/// A field that has to stand in a place.
#[derive(Clone, Copy)]
pub struct Needed {
    pub letter: Letter,
    /// From 0.
    pub place: usize,
    pub field: Field,
}

impl Needed {
    fn words(self) -> String {
        let letter = self.letter.char();
        let name = ['a', 'b', 'c'][self.place];
        let FieldWords {
            name: field,
            values,
            ..
        } = letters::field(self.field);
        let colon = if values.is_empty() { "" } else { ": " };
        format!("{letter} needs {field} (field {name}) here{colon}{values}")
    }
}

impl Wrong<'_> {
    pub fn words(&self) -> String {
        match *self {
            Wrong::Always(words) => words.to_string(),
            Wrong::NoLetter(word) => no_letter(word),
            Wrong::NoField(needed) => needed.words(),
            Wrong::NoNumber(word, needed) => {
                format!("'{}' is no number: {}", shown(word), needed.words())
            }
            Wrong::LeadingZero(word) => format!("leading zero in {}", shown(word)),
            Wrong::TooLarge(word) => format!("{} is above 65535", shown(word)),
            Wrong::NoText(letter) => {
                format!("{} needs a text here, bare or in quotes", letter.char())
            }
            Wrong::TextLength(length) => {
                format!("a text has 1 to {MOST_TEXT} bytes, this has {length}")
            }
            Wrong::NoFormula(wrong) => {
                format!("no formula: {wrong} (in quotes any text may stand)")
            }
            Wrong::NoUtf8(byte) => format!("no UTF-8 here: write \\x{byte:02X}"),
            Wrong::Control(byte) => {
                format!("a control character in the text: write \\x{byte:02X}")
            }
            Wrong::TooMuch(letter) => too_much(letter),
            Wrong::Operator(operator) => format!("{operator}, and a formula has no blanks"),
            Wrong::NoArrow(word) => format!("'->' is missing before '{}'", shown(word)),
            Wrong::NoSecondNumber(refusal) => no_second_number(refusal),
            Wrong::Full(calls) => full(calls),
            Wrong::Refused(refusal) => refusal.to_string(),
        }
    }
}

/// A word's first characters.
fn shown(word: &[u8]) -> String {
    const MOST: usize = 24;
    escaped(&start(word, MOST))
}

fn no_letter(word: &[u8]) -> String {
    let right = match hint::letter(word) {
        Some(letter) => format!("write {}", letter.char()),
        None => {
            let all = Letter::ALL.map(|letter| letter.char().to_string());
            format!("one of {}", all.join(" "))
        }
    };
    format!("'{}' is no call's letter: {right}", shown(word))
}

fn too_much(letter: Letter) -> String {
    let most = match (letter.has_text(), letter.fields().len()) {
        (true, _) => "its text, and a formula has no blanks",
        (false, 0) => "its letter",
        (false, 1) => "one field",
        (false, 2) => "two fields",
        (false, _) => "three fields",
    };
    format!("{} takes no more than {most}", letter.char())
}

fn no_second_number(refusal: u16) -> String {
    const DENIED: u32 = Refusal::Denied(Lock(0)).number();
    match u32::from(refusal) {
        DENIED => format!("the lock is missing: 'no {DENIED} N', N the deny lock that opens"),
        other => {
            format!(
                "the second number is missing: write 'no {other} 0', only {DENIED} names a lock"
            )
        }
    }
}

fn full(calls: usize) -> String {
    let [calls, most] = [calls, JOURNAL_BYTES].map(grouped);
    format!("the journal is full here: {calls} calls, and {most} bytes are the most (10)")
}
