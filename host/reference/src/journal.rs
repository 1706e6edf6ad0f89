//! Journals (document 01: desk files): their layout, which ones are readable,
//! and how a record is appended.
//!
//! A file is the mark, the version and the record count, then the records. A
//! record is the letter's byte, a, b, c and the text's length, then the text.
//! Numbers have 16 bits, low byte first.

use crate::letter::Letter;
use crate::limits::{MAX_JOURNAL_BYTES, MAX_TEXT_BYTES};
use std::ops::Range;

/// The bytes before the first record: mark, version and count. The first
/// record's cursor is this.
pub const HEAD_BYTES: usize = 7;
/// The bytes of a record before its text.
pub const RECORD_HEAD_BYTES: usize = 9;

const MARK: [u8; 3] = *b"KLD";
/// Since edits name a thread. In version 1 their field a was a user.
const VERSION: u16 = 2;
/// Where a file's record count stands.
const COUNT: Range<usize> = 5..7;

/// Why a file, or a record to append, is refused.
#[derive(Clone, Copy, Debug, PartialEq, Eq)]
pub enum Refusal {
    /// Document 01: full.
    Full,
    /// Document 01: not a desk file.
    NotJournal,
    /// Document 01: other version.
    OtherVersion,
    /// Document 01: broken file.
    Corrupt,
}

impl Refusal {
    /// The number in document 01's table.
    pub fn number(self) -> u32 {
        match self {
            Refusal::Full => 10,
            Refusal::NotJournal => 16,
            Refusal::OtherVersion => 17,
            Refusal::Corrupt => 18,
        }
    }
}

/// One call as a journal keeps it. Any values can stand here; [`fits`] says
/// whether a journal takes them.
#[derive(Clone, Debug, PartialEq, Eq)]
pub struct Record {
    pub letter: u8,
    pub a: u16,
    pub b: u16,
    pub c: u16,
    pub text: Vec<u8>,
}

impl Record {
    /// The bytes of the record in a file.
    pub fn size(&self) -> usize {
        RECORD_HEAD_BYTES + self.text.len()
    }
}

/// What stands at a cursor.
#[derive(Clone, Debug, PartialEq, Eq)]
pub enum Step {
    /// A whole record that fits. Its text is a range of the file, and the
    /// cursor after the record is the text's end.
    Record {
        letter: u8,
        a: u16,
        b: u16,
        c: u16,
        text: Range<usize>,
    },
    /// The cursor is at the file's end or beyond it.
    End,
    /// Bytes are left, but they don't start with a whole record that fits.
    Corrupt,
}

/// Whether a record with a text of this length fits: a known letter, 0 in
/// every unnamed field, 1 to 96 bytes of text where its call has one and none
/// for the others.
fn shape_fits(letter: u8, fields: [u16; 3], text_length: usize) -> bool {
    let Some(letter) = Letter::of(letter) else {
        return false;
    };
    let text_fits = match letter.has_text() {
        true => (1..=MAX_TEXT_BYTES).contains(&text_length),
        false => text_length == 0,
    };
    let named = letter.fields().len();
    text_fits && fields[named..].iter().all(|field| *field == 0)
}

/// Whether a journal takes the record.
pub fn fits(record: &Record) -> bool {
    let fields = [record.a, record.b, record.c];
    shape_fits(record.letter, fields, record.text.len())
}

/// The record count of a file, if the head is right. The rest of the file
/// isn't looked at, nor is its length judged.
fn count(file: &[u8]) -> Result<u16, Refusal> {
    let numbers = file.strip_prefix(&MARK).ok_or(Refusal::NotJournal)?;
    let [v0, v1, n0, n1, ..] = *numbers else {
        return Err(Refusal::Corrupt);
    };
    if u16::from_le_bytes([v0, v1]) != VERSION {
        return Err(Refusal::OtherVersion);
    }
    Ok(u16::from_le_bytes([n0, n1]))
}

/// What stands at a cursor. The file's head isn't looked at, so any bytes and
/// any cursor will do.
pub fn record_at(file: &[u8], cursor: usize) -> Step {
    let rest = match file.get(cursor..) {
        None | Some([]) => return Step::End,
        Some(rest) => rest,
    };
    let Some((&head, after)) = rest.split_first_chunk::<RECORD_HEAD_BYTES>() else {
        return Step::Corrupt;
    };
    let [letter, a0, a1, b0, b1, c0, c1, t0, t1] = head;
    let [a, b, c, length] = [[a0, a1], [b0, b1], [c0, c1], [t0, t1]].map(u16::from_le_bytes);
    let length = usize::from(length);
    if !shape_fits(letter, [a, b, c], length) || after.len() < length {
        return Step::Corrupt;
    }
    let start = cursor + RECORD_HEAD_BYTES;
    Step::Record {
        letter,
        a,
        b,
        c,
        text: start..start + length,
    }
}

/// Whether a file is readable. Builds nothing.
pub fn check(file: &[u8]) -> Result<(), Refusal> {
    let count = count(file)?;
    if file.len() > MAX_JOURNAL_BYTES {
        return Err(Refusal::Corrupt);
    }
    let mut cursor = HEAD_BYTES;
    for _ in 0..count {
        match record_at(file, cursor) {
            Step::Record { text, .. } => cursor = text.end,
            Step::End | Step::Corrupt => return Err(Refusal::Corrupt),
        }
    }
    if cursor < file.len() {
        return Err(Refusal::Corrupt);
    }
    Ok(())
}

/// Has a file's records taken in order, each with its letter, fields and text.
/// The whole file is checked first.
#[inline]
pub fn walk(file: &[u8], mut take: impl FnMut(u8, [u16; 3], &[u8])) -> Result<(), Refusal> {
    check(file)?;
    let mut cursor = HEAD_BYTES;
    while let Step::Record {
        letter,
        a,
        b,
        c,
        text,
    } = record_at(file, cursor)
    {
        cursor = text.end;
        take(letter, [a, b, c], &file[text]);
    }
    Ok(())
}

/// A file's records in order. The whole file is checked first.
pub fn read(file: &[u8]) -> Result<Vec<Record>, Refusal> {
    let mut records = Vec::new();
    walk(file, |letter, [a, b, c], text| {
        let text = text.to_vec();
        records.push(Record {
            letter,
            a,
            b,
            c,
            text,
        });
    })?;
    Ok(records)
}

/// The first bytes of a file with this many records.
fn head(count: u16) -> [u8; HEAD_BYTES] {
    let [m0, m1, m2] = MARK;
    let [v0, v1] = VERSION.to_le_bytes();
    let [n0, n1] = count.to_le_bytes();
    [m0, m1, m2, v0, v1, n0, n1]
}

/// The bytes of a record before its text. Panics where the text's length is
/// beyond 16 bits.
fn record_head(record: &Record) -> [u8; RECORD_HEAD_BYTES] {
    let length = u16::try_from(record.text.len()).expect("a text's length has 16 bits");
    let [a0, a1] = record.a.to_le_bytes();
    let [b0, b1] = record.b.to_le_bytes();
    let [c0, c1] = record.c.to_le_bytes();
    let [t0, t1] = length.to_le_bytes();
    [record.letter, a0, a1, b0, b1, c0, c1, t0, t1]
}

/// The file of these records. It doesn't judge them: [`read`] refuses a file
/// with an unfit one, or one that is too long. Panics where their count or a
/// text's length is beyond 16 bits.
pub fn write(records: &[Record]) -> Vec<u8> {
    let count = u16::try_from(records.len()).expect("a count has 16 bits");
    let mut file = head(count).to_vec();
    for record in records {
        file.extend(record_head(record));
        file.extend_from_slice(&record.text);
    }
    file
}

/// Writes the file without records, that appending starts from, to the
/// buffer's start. Answers its length. A refusal changes no byte.
pub fn empty(buffer: &mut [u8]) -> Result<usize, Refusal> {
    let start = buffer.get_mut(..HEAD_BYTES).ok_or(Refusal::Full)?;
    start.copy_from_slice(&head(0));
    Ok(HEAD_BYTES)
}

/// Appends a record to the file in the buffer's first `length` bytes. Answers
/// the file's new length. A refusal changes no byte.
pub fn append(buffer: &mut [u8], length: usize, record: &Record) -> Result<usize, Refusal> {
    let file = buffer.get(..length).ok_or(Refusal::Corrupt)?;
    check(file)?;
    if !fits(record) {
        return Err(Refusal::Corrupt);
    }
    let end = length + record.size();
    if end > buffer.len() || end > MAX_JOURNAL_BYTES {
        return Err(Refusal::Full);
    }
    // A readable file has fewer than 65,535 records: each has 9 bytes or more.
    let count = count(file)? + 1;
    let text = length + RECORD_HEAD_BYTES;
    buffer[COUNT].copy_from_slice(&count.to_le_bytes());
    buffer[length..text].copy_from_slice(&record_head(record));
    buffer[text..end].copy_from_slice(&record.text);
    Ok(end)
}
