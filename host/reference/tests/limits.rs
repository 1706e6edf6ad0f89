//! The limits and the operations' numbers, against document 01.

use reference::limits::*;
use reference::operations::{DENY, EXECUTE, READ, WRITE};

#[test]
fn most_at_a_time() {
    assert_eq!(MAX_USERS, 32);
    assert_eq!(MAX_LIVE_THREADS, 64);
    assert_eq!(MAX_SEGMENTS, 64);
    assert_eq!(MAX_DEFINED_KEYS, 1_024);
    assert_eq!(MAX_LIST_KEYS, 8);
    assert_eq!(MAX_SEGMENT_PRODUCTS, 8);
    assert_eq!(MAX_FRAMES, 16);
}

#[test]
fn numbers_in_all() {
    assert_eq!(THREAD_NUMBERS, 65_536);
    assert_eq!(LOCK_NUMBERS, 65_536);
}

#[test]
fn texts_and_journals() {
    assert_eq!(MAX_TEXT_BYTES, 96);
    assert_eq!(MAX_DEPTH, 8);
    assert_eq!(MAX_PRODUCTS, 8);
    assert_eq!(MAX_LITERALS, 6);
    assert_eq!(MAX_JOURNAL_BYTES, 65_535);
}

#[test]
fn operations() {
    assert_eq!([EXECUTE, READ, WRITE, DENY], [1, 2, 4, 8]);
}
