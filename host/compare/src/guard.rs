//! The proved guard as numbers: its arrays, and its answers as they are.

use reference::call::Call;
use reference::guard::Answer;
use reference::journal::Record;
use reference::limits::{
    MAX_DEFINED_KEYS, MAX_FRAMES, MAX_LIVE_THREADS, MAX_SEGMENT_PRODUCTS, MAX_SEGMENTS,
};
use rotundaaloe::raw;
pub use rotundaaloe::raw::Cells;

/// A call that has a function of its own beside the entry.
#[derive(Clone, Copy)]
pub enum Own {
    CallSegment {
        thread: u16,
        segment: u16,
    },
    ReturnCall {
        thread: u16,
    },
    Access {
        thread: u16,
        segment: u16,
        operation: u16,
    },
}

impl Own {
    /// That of a record's call, if it has one.
    pub fn of_record(record: &Record) -> Option<Own> {
        Own::of(Call::of(record)?)
    }

    /// That of a call, if it has one.
    pub fn of(call: Call) -> Option<Own> {
        match call {
            Call::CallSegment { thread, segment } => Some(Own::CallSegment { thread, segment }),
            Call::ReturnCall { thread } => Some(Own::ReturnCall { thread }),
            Call::Access {
                thread,
                segment,
                operation,
            } => Some(Own::Access {
                thread,
                segment,
                operation,
            }),
            Call::NewUser | Call::NewSegment { .. } | Call::NewKey { .. } => None,
            Call::StartThread { .. } | Call::EndThread { .. } => None,
            Call::GiveKey { .. } | Call::TakeKey { .. } => None,
            Call::AddLock { .. } | Call::DropLock { .. } => None,
        }
    }
}

/// Every cell with the same bytes.
pub fn filled_with(byte: u8) -> Box<Cells> {
    let small = u16::from_ne_bytes([byte; 2]);
    let large = u32::from_ne_bytes([byte; 4]);
    Box::new(Cells {
        registry: [large; 8],
        makers: [small; MAX_DEFINED_KEYS],
        segments: [[[small; 8]; 2]; MAX_SEGMENTS],
        locks: [[[large; 8]; MAX_SEGMENT_PRODUCTS]; MAX_SEGMENTS],
        threads: [[[small; 8]; 1 + MAX_FRAMES]; MAX_LIVE_THREADS],
    })
}

/// What the proved guard answers where the reference answers this: the answer,
/// or the refusal times 65,536 plus its second number.
pub fn coded(answer: Answer) -> u32 {
    match answer {
        Ok(answer) => u32::from(answer),
        Err(refusal) => refusal.number() * 65_536 + u32::from(refusal.second()),
    }
}

/// The refusal's number in an answer, or 0 if it accepts.
pub fn outcome(answer: u32) -> u32 {
    answer / 65_536
}

/// A proved guard with the arrays that it is lent. The answers are as
/// [`coded`] says.
#[derive(Clone)]
pub struct Guard {
    cells: Box<Cells>,
}

impl Guard {
    /// A guard in the empty state, which it writes over what the arrays held.
    pub fn new() -> Guard {
        let mut cells = filled_with(0xA5);
        raw::empty(&mut cells);
        Guard { cells }
    }

    /// A guard with any numbers in its arrays.
    pub fn with_cells(cells: Box<Cells>) -> Guard {
        Guard { cells }
    }

    pub fn cells(&self) -> &Cells {
        &self.cells
    }

    /// One call by its letter.
    #[inline]
    pub fn call(&mut self, letter: u8, a: u16, b: u16, c: u16, text: &[u8]) -> u32 {
        raw::call(&mut self.cells, letter, a, b, c, text)
    }

    /// A call by its own function.
    pub fn call_own(&mut self, own: Own) -> u32 {
        match own {
            Own::CallSegment { thread, segment } => self.call_segment(thread, segment),
            Own::ReturnCall { thread } => self.return_call(thread),
            Own::Access {
                thread,
                segment,
                operation,
            } => self.access(thread, segment, operation),
        }
    }

    /// C without the entry.
    #[inline]
    pub fn call_segment(&mut self, thread: u16, segment: u16) -> u32 {
        raw::call_segment(&mut self.cells, thread, segment)
    }

    /// R without the entry.
    #[inline]
    pub fn return_call(&mut self, thread: u16) -> u32 {
        raw::return_call(&mut self.cells, thread)
    }

    /// A without the entry.
    #[inline]
    pub fn access(&self, thread: u16, segment: u16, operation: u16) -> u32 {
        raw::access(&self.cells, thread, segment, operation)
    }

    /// The segment's lock list for the user, in the first of the rows.
    pub fn list_locks(&self, user: u16, segment: u16, rows: &mut [raw::LockRow]) -> u32 {
        raw::list_locks(&self.cells, user, segment, rows)
    }
}

impl Default for Guard {
    fn default() -> Guard {
        Guard::new()
    }
}
