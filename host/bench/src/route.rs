//! A thread with some open calls before a sheet with locks, which the check is
//! measured on.

use reference::journal::Record;
use reference::limits::MAX_FRAMES;
use reference::operations::{EXECUTE, WRITE};
use testing::calls::{call, lock};

/// The open calls of the thread.
pub const DEPTHS: [u16; 4] = [1, 2, 4, MAX_FRAMES as u16];

pub const THREAD: u16 = 0;
pub const SHEET: u16 = CODE;
/// The number of the sheet's first lock.
pub const FIRST_LOCK: u16 = CODE;

/// The code segments. Each has one lock, which opens for the thread's user.
const CODE: u16 = 16;

/// The calls that lead there from the empty state. D0 to D8 are made. The open
/// call of the segment `holder` has handed over its own key and D1 to D7, the
/// others only their own; segment 0 is the oldest's, `depth - 1` the newest's.
/// The sheet has a lock of each text, for writing.
pub fn calls(depth: u16, holder: u16, texts: &[String]) -> Vec<Record> {
    let mut calls = vec![call(b'U', 0, 0, 0), call(b'S', 0, 0, 0)];
    calls.extend(vec![call(b'N', THREAD, 0, 0); usize::from(CODE)]);
    calls.push(call(b'N', THREAD, 1, 0));
    calls.extend(vec![call(b'K', THREAD, 0, 0); 9]);
    calls.extend((1..=7).map(|key| call(b'G', THREAD, holder, key)));
    calls.extend((0..CODE).map(|segment| lock(THREAD, segment, EXECUTE, b"U0")));
    let locks = texts
        .iter()
        .map(|text| lock(THREAD, SHEET, WRITE, text.as_bytes()));
    calls.extend(locks);
    calls.extend(entered(depth));
    calls
}

/// The thread's calls.
pub fn entered(depth: u16) -> Vec<Record> {
    let segments = 0..depth;
    segments
        .map(|segment| call(b'C', THREAD, segment, 0))
        .collect()
}

/// The thread's returns from all of them.
pub fn left(depth: u16) -> Vec<Record> {
    vec![call(b'R', THREAD, 0, 0); usize::from(depth)]
}
