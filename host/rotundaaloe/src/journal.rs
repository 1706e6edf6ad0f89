//! Journals (document 01: desk files): files of call records, to be replayed.

use crate::limits::{JOURNAL_BYTES, JOURNAL_HEAD};
use crate::numbers::{Access, Defined, Kind, Lock, Operations, Segment, Thread, User};
use crate::raw;
use crate::refusal::{self, Refusal};
use std::fmt;
use std::iter::FusedIterator;

/// What a journal begins with.
pub const MARK: &[u8; 3] = b"KLD";
/// The version that follows the mark; a file with another is refused. In files of
/// version 1 the six edits named a user.
pub const VERSION: u16 = 2;
/// The bytes of a record before its text.
const RECORD_HEAD: usize = 9;

/// A call as a journal records it: its letter, fields and text. Fields that the
/// letter doesn't name are 0, and only L has a text.
#[derive(Clone, Copy, Debug, PartialEq, Eq)]
pub struct Record<'a> {
    pub letter: u8,
    pub a: u16,
    pub b: u16,
    pub c: u16,
    pub text: &'a [u8],
}

/// So that what takes a call takes a record too, by reference or not.
impl<'a> From<&Record<'a>> for Record<'a> {
    fn from(record: &Record<'a>) -> Record<'a> {
        *record
    }
}

/// A call without a text.
const fn call<'a>(letter: char, a: u16, b: u16, c: u16) -> Record<'a> {
    Record {
        letter: letter as u8,
        a,
        b,
        c,
        text: b"",
    }
}

/// The twelve calls. [`Guard`](crate::Guard) has a function of the same name for
/// each.
impl<'a> Record<'a> {
    pub const fn new_user() -> Record<'a> {
        call('U', 0, 0, 0)
    }

    pub const fn start_thread(user: User) -> Record<'a> {
        call('S', user.0, 0, 0)
    }

    pub const fn end_thread(thread: Thread) -> Record<'a> {
        call('E', thread.0, 0, 0)
    }

    pub const fn new_segment(thread: Thread, kind: Kind) -> Record<'a> {
        call('N', thread.0, kind as u16, 0)
    }

    pub const fn new_key(thread: Thread) -> Record<'a> {
        call('K', thread.0, 0, 0)
    }

    pub const fn give_key(thread: Thread, segment: Segment, key: Defined) -> Record<'a> {
        call('G', thread.0, segment.0, key.0)
    }

    pub const fn take_key(thread: Thread, segment: Segment, key: Defined) -> Record<'a> {
        call('T', thread.0, segment.0, key.0)
    }

    pub const fn add_lock(
        thread: Thread,
        segment: Segment,
        operations: Operations,
        text: &'a str,
    ) -> Record<'a> {
        Record {
            text: text.as_bytes(),
            ..call('L', thread.0, segment.0, operations.0)
        }
    }

    pub const fn drop_lock(thread: Thread, lock: Lock) -> Record<'a> {
        call('D', thread.0, lock.0, 0)
    }

    pub const fn call_segment(thread: Thread, segment: Segment) -> Record<'a> {
        call('C', thread.0, segment.0, 0)
    }

    pub const fn return_call(thread: Thread) -> Record<'a> {
        call('R', thread.0, 0, 0)
    }

    pub const fn access(thread: Thread, segment: Segment, access: Access) -> Record<'a> {
        call('A', thread.0, segment.0, access as u16)
    }
}

/// A readable journal.
#[derive(Clone)]
pub struct Journal {
    /// The file, and room for records to come.
    buffer: Vec<u8>,
    size: usize,
}

impl Journal {
    /// The journal without records.
    pub fn new() -> Journal {
        let mut buffer = vec![0; JOURNAL_HEAD];
        let answer = raw::journal_empty(&mut buffer);
        assert_eq!(answer, 0, "the buffer holds the head");
        Journal {
            buffer,
            size: JOURNAL_HEAD,
        }
    }

    /// The journal of these bytes, if they are readable.
    pub fn from_bytes(bytes: &[u8]) -> Result<Journal, refusal::Read> {
        Records::open(bytes)?;
        Ok(Journal {
            buffer: bytes.to_vec(),
            size: bytes.len(),
        })
    }

    /// Appends a record, or a [`Call`](crate::Call) as one. A refusal changes
    /// nothing.
    pub fn append<'a>(&mut self, record: impl Into<Record<'a>>) -> Result<(), refusal::Append> {
        let record = record.into();
        self.make_room(RECORD_HEAD + record.text.len());
        let fields = [record.a, record.b, record.c];
        let (buffer, size) = (&mut self.buffer, &mut self.size);
        match raw::journal_append(buffer, size, record.letter, fields, record.text) {
            0 => Ok(()),
            number => Err(refusal::Append::of(Refusal::of(number, 0))),
        }
    }

    /// For so many more bytes, unless the file would pass its limit. The room is
    /// doubled, so that it is seldom made.
    fn make_room(&mut self, bytes: usize) {
        let needed = JOURNAL_BYTES.min(self.size + bytes);
        if self.buffer.len() < needed {
            self.buffer.resize(JOURNAL_BYTES.min(2 * needed), 0);
        }
    }

    /// The records in order: the file is opened, as any other is.
    pub fn records(&self) -> Records<'_> {
        Records::open(self.as_bytes()).expect("a journal stays readable")
    }

    /// The bytes of the file.
    pub fn as_bytes(&self) -> &[u8] {
        &self.buffer[..self.size]
    }
}

impl Default for Journal {
    fn default() -> Journal {
        Journal::new()
    }
}

impl fmt::Debug for Journal {
    fn fmt(&self, f: &mut fmt::Formatter) -> fmt::Result {
        f.debug_list().entries(self.records()).finish()
    }
}

impl PartialEq for Journal {
    fn eq(&self, other: &Journal) -> bool {
        self.as_bytes() == other.as_bytes()
    }
}

impl Eq for Journal {}

/// The records of a readable file, in order. Nobody has those of a file that was
/// not opened: only [`Records::open`] and [`Journal::records`] make them.
#[derive(Clone, Debug)]
pub struct Records<'a> {
    file: &'a [u8],
    cursor: usize,
}

impl<'a> Records<'a> {
    /// Those of these bytes, if the whole of them is a readable file.
    pub fn open(file: &'a [u8]) -> Result<Records<'a>, refusal::Read> {
        let mut cursor = 0;
        match raw::journal_open(file, &mut cursor) {
            0 => Ok(Records { file, cursor }),
            number => Err(refusal::Read::of(Refusal::of(number, 0))),
        }
    }
}

impl<'a> Iterator for Records<'a> {
    type Item = Record<'a>;

    fn next(&mut self) -> Option<Record<'a>> {
        let mut values = raw::Values::default();
        match raw::journal_next(self.file, &mut self.cursor, &mut values) {
            1 => (),
            0 => return None,
            number => unreachable!("{number} in a file that was opened"),
        }
        let [letter, a, b, c, start, end] = values;
        Some(Record {
            letter: letter as u8,
            a: a as u16,
            b: b as u16,
            c: c as u16,
            text: &self.file[start as usize..end as usize],
        })
    }
}

impl FusedIterator for Records<'_> {}
