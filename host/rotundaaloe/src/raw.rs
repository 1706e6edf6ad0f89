//! The proved functions as they are: numbers in, numbers out, on arrays whose
//! lengths the types carry. What the numbers mean is told in
//! `host/include/rotundaaloe_raw.h`. Everything unsafe is in this file; a host takes
//! the types above it.

use crate::limits::{
    MOST_KEYS, MOST_LISTED, MOST_LITERALS, MOST_OPEN_CALLS, MOST_PRODUCTS, MOST_SEGMENTS,
    MOST_THREADS,
};

/// The cells of a row, and of the registry: a key list fills one.
const ROW: usize = MOST_LISTED;
/// A segment's rows: what it is, and its key list.
const SEGMENT_ROWS: usize = 2;
/// A thread's rows: what it is, and its open calls.
const THREAD_ROWS: usize = 1 + MOST_OPEN_CALLS;

/// A table for each segment.
pub type Segments = [[[u16; ROW]; SEGMENT_ROWS]; MOST_SEGMENTS];
/// The products of each segment's standing locks.
pub type Locks = [[[u32; ROW]; MOST_PRODUCTS]; MOST_SEGMENTS];
/// A table for each live thread.
pub type Threads = [[[u16; ROW]; THREAD_ROWS]; MOST_THREADS];

/// The five arrays of a protection state. Every cell 0 is the empty state, and
/// any numbers at all are some state; [`view`](crate::view) tells which.
#[derive(Clone, Debug)]
#[repr(C)]
pub struct Cells {
    pub registry: [u32; ROW],
    pub makers: [u16; MOST_KEYS],
    pub segments: Segments,
    pub locks: Locks,
    pub threads: Threads,
}

impl Cells {
    /// The empty state.
    pub const EMPTY: Cells = Cells {
        registry: [0; ROW],
        makers: [0; MOST_KEYS],
        segments: [[[0; ROW]; SEGMENT_ROWS]; MOST_SEGMENTS],
        locks: [[[0; ROW]; MOST_PRODUCTS]; MOST_SEGMENTS],
        threads: [[[0; ROW]; THREAD_ROWS]; MOST_THREADS],
    };

    /// The bytes of all cells.
    pub const SIZE: usize = size_of::<[u32; ROW]>()
        + size_of::<[u16; MOST_KEYS]>()
        + size_of::<Segments>()
        + size_of::<Locks>()
        + size_of::<Threads>();

    /// All cells as they are in memory, to be compared at once.
    fn bytes(&self) -> &[u8; Cells::SIZE] {
        // SAFETY: the cells are numbers without padding between them, and
        // borrowed for as long as the bytes are.
        unsafe { &*(&raw const *self).cast() }
    }
}

// No byte of it is padding.
const _: () = assert!(size_of::<Cells>() == Cells::SIZE);

impl PartialEq for Cells {
    fn eq(&self, other: &Cells) -> bool {
        self.bytes() == other.bytes()
    }
}

impl Eq for Cells {}

/// A sum of products. Row i is product i: its literals in order from cell 0, and
/// their number in the last cell. All other cells are 0.
pub type Rows = [[u32; 8]; 8];

/// A record of a journal: its letter, a, b, c, where its text starts, and where
/// it ends.
pub type Values = [u64; 6];

/// A row of a lock list: the lock, its operations, and 1 where it denies them.
/// Then the keys: the letter, 0 where there is none, the number, and 1 where it
/// is barred.
pub type LockRow = [[u16; 3]; 1 + MOST_LITERALS];

mod c {
    unsafe extern "C" {
        pub fn rotundaaloe_raw_version() -> u32;

        pub fn rotundaaloe_raw_left(registry: *const u32, left: *mut [u32; 5]);

        pub fn rotundaaloe_raw_compile(
            text: *const u8,
            length: usize,
            users: u32,
            threads: u32,
            segments: u32,
            defined: u32,
            rows: *mut [u32; 8],
        ) -> u32;

        pub fn rotundaaloe_raw_opens(
            rows: *const [u32; 8],
            count: usize,
            keys: *const u32,
            keys_count: usize,
        ) -> u32;

        pub fn rotundaaloe_raw_journal_open(
            file: *const u8,
            length: usize,
            cursor: *mut usize,
        ) -> u32;

        pub fn rotundaaloe_raw_journal_next(
            file: *const u8,
            length: usize,
            cursor: *mut usize,
            values: *mut u64,
        ) -> u32;

        pub fn rotundaaloe_raw_journal_empty(buffer: *mut u8, capacity: usize) -> u32;

        pub fn rotundaaloe_raw_journal_append(
            buffer: *mut u8,
            capacity: usize,
            size: *mut usize,
            letter: u8,
            a: u16,
            b: u16,
            c: u16,
            text: *const u8,
            text_length: usize,
        ) -> u32;

        pub fn rotundaaloe_raw_empty(
            registry: *mut u32,
            makers: *mut u16,
            segments: *mut [[u16; 8]; 2],
            locks: *mut [[u32; 8]; 8],
            threads: *mut [[u16; 8]; 17],
        );

        pub fn rotundaaloe_raw_call(
            registry: *mut u32,
            makers: *mut u16,
            segments: *mut [[u16; 8]; 2],
            locks: *mut [[u32; 8]; 8],
            threads: *mut [[u16; 8]; 17],
            letter: u8,
            a: u16,
            b: u16,
            c: u16,
            text: *const u8,
            length: usize,
        ) -> u32;

        pub fn rotundaaloe_raw_call_segment(
            registry: *const u32,
            segments: *const [[u16; 8]; 2],
            locks: *const [[u32; 8]; 8],
            threads: *mut [[u16; 8]; 17],
            a: u16,
            b: u16,
        ) -> u32;

        pub fn rotundaaloe_raw_return_call(threads: *mut [[u16; 8]; 17], a: u16) -> u32;

        pub fn rotundaaloe_raw_access(
            registry: *const u32,
            segments: *const [[u16; 8]; 2],
            locks: *const [[u32; 8]; 8],
            threads: *const [[u16; 8]; 17],
            a: u16,
            b: u16,
            c: u16,
        ) -> u32;

        pub fn rotundaaloe_raw_list_locks(
            registry: *const u32,
            segments: *const [[u16; 8]; 2],
            locks: *const [[u32; 8]; 8],
            user: u16,
            segment: u16,
            rows: *mut [[u16; 3]; 7],
            lent: usize,
        ) -> u32;

        pub fn rotundaaloe_raw_find_key(threads: *const [[u16; 8]; 17], a: u16, key: u32) -> u32;
    }
}

// SAFETY of every call below: a pointer comes from a reference or a slice, so it
// is valid for the length that goes with it or for the array that the function
// has, and what is written to is borrowed mutably, so that nobody else sees it
// meanwhile. No function keeps a pointer.

/// The library's version: two digits for each of its three parts.
pub fn version() -> u32 {
    unsafe { c::rotundaaloe_raw_version() }
}

/// How many users, threads, segments, defined keys and locks are left to hand
/// out.
pub fn left(cells: &Cells) -> [u32; 5] {
    let mut left = [0; 5];
    unsafe { c::rotundaaloe_raw_left(cells.registry.as_ptr(), &raw mut left) };
    left
}

/// Writes the empty state.
pub fn empty(cells: &mut Cells) {
    unsafe {
        c::rotundaaloe_raw_empty(
            cells.registry.as_mut_ptr(),
            cells.makers.as_mut_ptr(),
            cells.segments.as_mut_ptr(),
            cells.locks.as_mut_ptr(),
            cells.threads.as_mut_ptr(),
        );
    }
}

/// One of the twelve calls, by its letter.
#[inline]
pub fn call(cells: &mut Cells, letter: u8, a: u16, b: u16, c: u16, text: &[u8]) -> u32 {
    unsafe {
        c::rotundaaloe_raw_call(
            cells.registry.as_mut_ptr(),
            cells.makers.as_mut_ptr(),
            cells.segments.as_mut_ptr(),
            cells.locks.as_mut_ptr(),
            cells.threads.as_mut_ptr(),
            letter,
            a,
            b,
            c,
            text.as_ptr(),
            text.len(),
        )
    }
}

/// C without the entry.
#[inline]
pub fn call_segment(cells: &mut Cells, a: u16, b: u16) -> u32 {
    unsafe {
        c::rotundaaloe_raw_call_segment(
            cells.registry.as_ptr(),
            cells.segments.as_ptr(),
            cells.locks.as_ptr(),
            cells.threads.as_mut_ptr(),
            a,
            b,
        )
    }
}

/// R without the entry.
#[inline]
pub fn return_call(cells: &mut Cells, a: u16) -> u32 {
    unsafe { c::rotundaaloe_raw_return_call(cells.threads.as_mut_ptr(), a) }
}

/// A without the entry.
#[inline]
pub fn access(cells: &Cells, a: u16, b: u16, c: u16) -> u32 {
    unsafe {
        c::rotundaaloe_raw_access(
            cells.registry.as_ptr(),
            cells.segments.as_ptr(),
            cells.locks.as_ptr(),
            cells.threads.as_ptr(),
            a,
            b,
            c,
        )
    }
}

/// Fills the first of the rows with the segment's locks, as this user may see
/// them.
pub fn list_locks(cells: &Cells, user: u16, segment: u16, rows: &mut [LockRow]) -> u32 {
    unsafe {
        c::rotundaaloe_raw_list_locks(
            cells.registry.as_ptr(),
            cells.segments.as_ptr(),
            cells.locks.as_ptr(),
            user,
            segment,
            rows.as_mut_ptr(),
            rows.len(),
        )
    }
}

/// The place of the thread's newest open call that hands the key over, by the
/// key's number.
#[inline]
pub fn find_key(cells: &Cells, a: u16, key: u32) -> u32 {
    unsafe { c::rotundaaloe_raw_find_key(cells.threads.as_ptr(), a, key) }
}

/// The products of a text, where so many users, threads, segments and defined
/// keys are handed out.
#[inline]
pub fn compile(text: &[u8], issued: [u32; 4], rows: &mut Rows) -> u32 {
    let [users, threads, segments, defined] = issued;
    let (start, length) = (text.as_ptr(), text.len());
    let rows = rows.as_mut_ptr();
    unsafe { c::rotundaaloe_raw_compile(start, length, users, threads, segments, defined, rows) }
}

/// Whether a key set, given by its keys' numbers, opens one of the first `count`
/// products.
pub fn opens(rows: &Rows, count: usize, keys: &[u32]) -> u32 {
    unsafe { c::rotundaaloe_raw_opens(rows.as_ptr(), count, keys.as_ptr(), keys.len()) }
}

/// Checks a whole file, and sets the cursor to its first record.
pub fn journal_open(file: &[u8], cursor: &mut usize) -> u32 {
    unsafe { c::rotundaaloe_raw_journal_open(file.as_ptr(), file.len(), cursor) }
}

/// The record at a cursor, which is then set after it.
#[inline]
pub fn journal_next(file: &[u8], cursor: &mut usize, values: &mut Values) -> u32 {
    let (start, length) = (file.as_ptr(), file.len());
    unsafe { c::rotundaaloe_raw_journal_next(start, length, cursor, values.as_mut_ptr()) }
}

/// Writes the file without records.
pub fn journal_empty(buffer: &mut [u8]) -> u32 {
    unsafe { c::rotundaaloe_raw_journal_empty(buffer.as_mut_ptr(), buffer.len()) }
}

/// Appends a record to the file in the buffer's first `size` bytes.
#[inline]
pub fn journal_append(
    buffer: &mut [u8],
    size: &mut usize,
    letter: u8,
    [a, b, c]: [u16; 3],
    text: &[u8],
) -> u32 {
    unsafe {
        c::rotundaaloe_raw_journal_append(
            buffer.as_mut_ptr(),
            buffer.len(),
            size,
            letter,
            a,
            b,
            c,
            text.as_ptr(),
            text.len(),
        )
    }
}
