//! Where and why a file that the proved check refuses is broken. The verdict is
//! the check's; this only explains it, and finds the records of a broken file by
//! the reference's reader, since the proved one has none for it.

use crate::figures::{counted, grouped};
use crate::letters::Letter;
use reference::journal::{Step, record_at};
use rotundaaloe::Refusal;
use rotundaaloe::journal::{self, MARK};
use rotundaaloe::limits::{JOURNAL_BYTES, JOURNAL_HEAD, MOST_TEXT};
use rotundaaloe::refusal::Read;
use rotundaaloe::state;
use std::fmt;

const VERSION: usize = 3;
const COUNT: usize = 5;
const RECORD_HEAD_BYTES: usize = 9;

/// Where a file is broken, and why.
#[derive(Clone, Debug, PartialEq, Eq)]
pub struct Damage {
    /// From 0.
    pub byte: usize,
    /// From 0, where it is in a record.
    pub record: Option<usize>,
    pub sentence: String,
    pub refusal: Refusal,
}

impl fmt::Display for Damage {
    fn fmt(&self, f: &mut fmt::Formatter) -> fmt::Result {
        write!(f, "byte {}", self.byte)?;
        if let Some(record) = self.record {
            write!(f, ", record {record}")?;
        }
        let (number, word) = (self.refusal.number(), self.refusal.word());
        write!(f, ": {} ({number} {word})", self.sentence)
    }
}

/// A place and what is wrong there.
type Finding = (usize, Option<usize>, String);

/// Explains why the check refuses these bytes.
pub fn explain(bytes: &[u8], refusal: Read) -> Damage {
    let (byte, record, sentence) = match refusal {
        Read::NotJournal => no_mark(bytes),
        Read::OtherVersion => other_version(bytes),
        Read::Corrupt => broken(bytes),
    };
    Damage {
        byte,
        record,
        sentence,
        refusal: refusal.into(),
    }
}

/// The number of 16 bits at a place, 0 where the file is shorter.
fn number_at(bytes: &[u8], place: usize) -> usize {
    match bytes.get(place..place + 2) {
        Some(&[low, high]) => usize::from(u16::from_le_bytes([low, high])),
        _ => 0,
    }
}

fn no_mark(bytes: &[u8]) -> Finding {
    let same = bytes
        .iter()
        .zip(MARK)
        .take_while(|(byte, mark)| byte == mark);
    let sentence = match bytes.starts_with(state::MARK) {
        true => "a state file, which 'keylock state' shows",
        false => "no mark: a journal begins with KLD",
    };
    (same.count(), None, sentence.to_string())
}

fn other_version(bytes: &[u8]) -> Finding {
    let read = journal::VERSION;
    let sentence = match number_at(bytes, VERSION) {
        1 => format!(
            "a journal of version 1, whose edits (N, K, G, T, L, D) name a user; in version \
             {read} they name a thread. The keylock that it was kept with reads it"
        ),
        version => format!("version {version}, only version {read} is known"),
    };
    (VERSION, None, sentence)
}

fn broken(bytes: &[u8]) -> Finding {
    let length = bytes.len();
    if length < JOURNAL_HEAD {
        let sentence = format!("cut short: {length} of the head's {JOURNAL_HEAD} bytes");
        return (length, None, sentence);
    }
    if length > JOURNAL_BYTES {
        let [length, most] = [length, JOURNAL_BYTES].map(grouped);
        return (JOURNAL_BYTES, None, format!("{length} bytes, over {most}"));
    }
    let count = number_at(bytes, COUNT);
    let (whole, cursor) = walked(bytes, JOURNAL_HEAD, count);
    if whole == count {
        return left_over(bytes, cursor, count);
    }
    if cursor == length {
        let [ends, says] = [whole, count].map(|number| counted(number, "record"));
        let sentence = format!("the file ends after {ends}, its count says {says}");
        return (cursor, None, sentence);
    }
    let (place, sentence) = unfit(&bytes[cursor..]);
    (cursor + place, Some(whole), sentence)
}

/// How many whole records follow each other from a cursor on, up to a limit, and
/// the cursor after them.
fn walked(bytes: &[u8], mut cursor: usize, limit: usize) -> (usize, usize) {
    for whole in 0..limit {
        match record_at(bytes, cursor) {
            Step::Record { text, .. } => cursor = text.end,
            Step::End | Step::Corrupt => return (whole, cursor),
        }
    }
    (limit, cursor)
}

/// What stands at a cursor, behind as many records as the count says.
fn left_over(bytes: &[u8], cursor: usize, count: usize) -> Finding {
    let (more, end) = walked(bytes, cursor, usize::MAX);
    let says = counted(count, "record");
    let sentence = if end == bytes.len() {
        let stand = grouped(count + more);
        format!("the count says {says}, but {stand} stand in the file")
    } else {
        let left = counted(bytes.len() - cursor, "byte");
        match count {
            0 => format!("{left} left over after the head, the count says {says}"),
            _ => format!("{left} left over after record {}, the last", count - 1),
        }
    };
    (cursor, None, sentence)
}

/// Why no whole record stands at the start of these bytes, and at which of them.
fn unfit(record: &[u8]) -> (usize, String) {
    let length = record.len();
    let byte = record.first().copied().unwrap_or(0);
    let Some(letter) = Letter::of(byte) else {
        return (0, format!("{} is no call's letter", byte_shown(byte)));
    };
    let name = letter.char();
    if length < RECORD_HEAD_BYTES {
        let sentence = format!("cut short: {length} of {RECORD_HEAD_BYTES} bytes before the text");
        return (length, sentence);
    }
    for (place, field) in "abc".chars().enumerate().skip(letter.fields().len()) {
        let at = 1 + 2 * place;
        let value = number_at(record, at);
        if value != 0 {
            return (at, format!("field {field} is {value}, but {name} has none"));
        }
    }
    let text = number_at(record, RECORD_HEAD_BYTES - 2);
    let there = length - RECORD_HEAD_BYTES;
    let wrong = match letter.has_text() {
        true if !(1..=MOST_TEXT).contains(&text) => {
            format!("the text's length is {text}, but {name}'s is 1 to {MOST_TEXT}")
        }
        true => {
            return (
                length,
                format!("cut short: {there} of the text's {text} bytes"),
            );
        }
        false => format!("the text's length is {text}, but {name} has no text"),
    };
    (RECORD_HEAD_BYTES - 2, wrong)
}

fn byte_shown(byte: u8) -> String {
    match byte.is_ascii_graphic() {
        true => format!("'{}'", char::from(byte)),
        false => format!("byte 0x{byte:02X}"),
    }
}
