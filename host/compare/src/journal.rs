//! The proved guard's journals as numbers: its answers, and the values that a
//! step of the reference is written as.

use reference::journal::{Record, Step};

pub use rotundaaloe::raw::Values;
pub use rotundaaloe::raw::{journal_empty as empty, journal_next as next, journal_open as open};

/// The proved guard's answer for what it accepts.
pub const ACCEPTED: u32 = 0;
/// The proved guard's answer for a cursor at the end.
pub const END: u32 = 0;
/// The proved guard's answer for a record at a cursor.
pub const RECORD: u32 = 1;
/// The proved guard's answer where no whole record stands at a cursor.
pub const CORRUPT: u32 = 18;

/// A record of the reference's for the host library.
pub fn lent(record: &Record) -> rotundaaloe::Record<'_> {
    let Record {
        letter, a, b, c, ..
    } = *record;
    let text = &record.text;
    rotundaaloe::Record {
        letter,
        a,
        b,
        c,
        text,
    }
}

/// Has the proved guard append a record to the file in the buffer's first
/// `size` bytes: [`ACCEPTED`], and `size` is the new one, or the refusal 10, 16,
/// 17 or 18.
pub fn append(buffer: &mut [u8], size: &mut usize, record: &Record) -> u32 {
    let fields = [record.a, record.b, record.c];
    rotundaaloe::raw::journal_append(buffer, size, record.letter, fields, &record.text)
}

/// The answer, the cursor and the values for a step of the reference, where the
/// last two are what they were before.
pub fn coded(step: &Step, cursor: usize, values: Values) -> (u32, usize, Values) {
    match step {
        Step::Record {
            letter,
            a,
            b,
            c,
            text,
        } => {
            let [a, b, c] = [*a, *b, *c].map(u64::from);
            let [start, end] = [text.start, text.end].map(|place| place as u64);
            let values = [u64::from(*letter), a, b, c, start, end];
            (RECORD, text.end, values)
        }
        Step::End => (END, cursor, values),
        Step::Corrupt => (CORRUPT, cursor, values),
    }
}
