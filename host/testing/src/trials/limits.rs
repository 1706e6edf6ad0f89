//! The limits, from both sides.

use super::{Guard, Office};
use reference::limits::{
    LOCK_NUMBERS, MAX_DEFINED_KEYS, MAX_FRAMES, MAX_LIST_KEYS, MAX_LIVE_THREADS, MAX_SEGMENTS,
    MAX_USERS, THREAD_NUMBERS,
};

const USERS: u16 = MAX_USERS as u16;
const SEGMENTS: u16 = MAX_SEGMENTS as u16;
const KEYS: u16 = MAX_DEFINED_KEYS as u16;
const LIST_KEYS: u16 = MAX_LIST_KEYS as u16;
const THREADS: u16 = MAX_LIVE_THREADS as u16;
const FRAMES: u16 = MAX_FRAMES as u16;
const LAST_THREAD: u16 = (THREAD_NUMBERS - 1) as u16;
const LAST_LOCK: u16 = (LOCK_NUMBERS - 1) as u16;

pub(super) fn the_sixteenth_call_is_the_last(guard: &mut dyn Guard) {
    let mut office = Office::with_totals(guard);
    office.ok(b'N', [0, 0, 0], "", 3);
    for call in 0..FRAMES {
        office.ok(b'C', [0, call % 2, 0], "", call % 2);
    }
    office.no(b'C', [0, 0, 0], "", 10, 0);
    office.no(b'C', [0, 3, 0], "", 15, 0);
    office.ok(b'L', [0, 0, 9], "S1", 3);
    office.no(b'C', [0, 0, 0], "", 14, 3);
    office.ok(b'A', [0, 2, 4], "", 2);
    office.ok(b'R', [0, 0, 0], "", 1);
    office.ok(b'C', [0, 1, 0], "", 1);
    office.no(b'C', [0, 1, 0], "", 10, 0);
    office.ok(b'E', [0, 0, 0], "", FRAMES);
    office.no(b'C', [0, 0, 0], "", 2, 0);
}

/// Each user has a thread. The last user's is the first.
pub(super) fn users_segments_and_keys_to_their_limits(guard: &mut dyn Guard) {
    let mut office = Office::new(guard);
    for user in 0..USERS {
        office.ok(b'U', [0, 0, 0], "", user);
    }
    office.no(b'U', [0, 0, 0], "", 10, 0);
    for thread in 0..USERS {
        office.ok(b'S', [USERS - 1 - thread, 0, 0], "", thread);
    }
    let never_started = USERS;
    for segment in 0..SEGMENTS {
        office.ok(b'N', [segment % USERS, segment % 2, 0], "", segment);
    }
    office.no(b'N', [0, 0, 0], "", 10, 0);
    office.no(b'N', [0, 2, 0], "", 7, 0);
    office.no(b'N', [never_started, 0, 0], "", 2, 0);
    office.no(b'N', [never_started, 2, 0], "", 2, 0);
    // User 0's thread, and the last segment is his.
    let (thread, segment) = (USERS - 1, SEGMENTS - 1);
    for key in 0..KEYS {
        office.ok(b'K', [thread, 0, 0], "", key);
    }
    office.no(b'K', [thread, 0, 0], "", 10, 0);
    office.no(b'K', [0, 0, 0], "", 10, 0);
    office.no(b'K', [never_started, 0, 0], "", 2, 0);
    office.no(b'G', [thread, segment, KEYS], "", 4, 0);
    office.no(b'G', [0, segment, KEYS - 1], "", 6, 0);
    office.ok(b'G', [thread, segment, KEYS - 1], "", 2);
    // Full as it is, 2 comes first.
    office.ok(b'E', [thread, 0, 0], "", 0);
    office.no(b'N', [thread, 0, 0], "", 2, 0);
    office.no(b'K', [thread, 0, 0], "", 2, 0);
    office.no(b'G', [thread, segment, KEYS - 1], "", 2, 0);
}

/// Keys are made by one thread and given by another of the same user.
pub(super) fn a_list_of_keys_to_its_limit(guard: &mut dyn Guard) {
    let mut office = Office::with_totals(guard);
    for key in 0..LIST_KEYS {
        office.ok(b'K', [0, 0, 0], "", key);
    }
    // The segment's own key is in the list already.
    let last = LIST_KEYS - 1;
    for key in 0..last {
        office.ok(b'G', [1, 0, key], "", key + 2);
    }
    office.no(b'G', [1, 0, last], "", 10, 0);
    office.no(b'G', [0, 0, last], "", 10, 0);
    office.no(b'G', [1, 0, 0], "", 8, 0);
    office.ok(b'T', [1, 0, 3], "", LIST_KEYS - 1);
    office.ok(b'G', [1, 0, last], "", LIST_KEYS);
    office.no(b'T', [1, 0, 3], "", 9, 0);
}

pub(super) fn the_products_of_a_segment_to_their_limit(guard: &mut dyn Guard) {
    let mut office = Office::with_totals(guard);
    for key in 0..8 {
        office.ok(b'K', [0, 0, 0], "", key);
    }
    // One stands already.
    office.ok(b'L', [0, 2, 2], "D0|D1|D2", 3);
    office.no(b'L', [0, 2, 2], "D0|D1|D2|D3|D4", 10, 0);
    office.ok(b'L', [1, 2, 2], "D0|D1|D2|D3", 4);
    office.no(b'L', [0, 2, 2], "D0", 10, 0);
    office.no(b'L', [1, 2, 2], "D0", 10, 0);
    office.no(b'L', [0, 2, 2], "D0&!D0", 13, 0);
    // Other segments have products of their own.
    office.ok(b'L', [0, 1, 1], "D0|D1|D2|D3|D4|D5|D6", 5);
    office.no(b'L', [0, 1, 1], "D0", 10, 0);
    office.ok(b'D', [1, 3, 0], "", 3);
    office.ok(b'L', [0, 2, 2], "D0|D1|D2", 6);
    office.no(b'L', [0, 2, 2], "D0", 10, 0);
}

pub(super) fn live_threads_to_their_limit(guard: &mut dyn Guard) {
    let mut office = Office::with_totals(guard);
    for thread in 2..THREADS {
        office.ok(b'S', [0, 0, 0], "", thread);
    }
    office.no(b'S', [0, 0, 0], "", 10, 0);
    office.no(b'S', [1, 0, 0], "", 1, 0);
    office.ok(b'C', [17, 0, 0], "", 0);
    office.ok(b'E', [17, 0, 0], "", 1);
    office.ok(b'S', [0, 0, 0], "", THREADS);
    office.no(b'S', [0, 0, 0], "", 10, 0);
    // The new thread has no call open.
    office.no(b'R', [THREADS, 0, 0], "", 9, 0);
    office.no(b'R', [17, 0, 0], "", 2, 0);
    // The last thread edits as the first does.
    office.ok(b'L', [THREADS - 1, 0, 1], "U0", 3);
    office.ok(b'D', [THREADS, 3, 0], "", 1);
}

/// Threads end and others start until their numbers, had they to share the live
/// threads' places, would meet over and over. Each keeps its own open call, and
/// its user.
pub(super) fn freed_places_are_used_again(guard: &mut dyn Guard) {
    let mut office = Office::with_totals(guard);
    let mut live: Vec<u16> = (0..THREADS).collect();
    for thread in 0..THREADS {
        // Two are there already.
        if thread > 1 {
            office.ok(b'S', [0, 0, 0], "", thread);
        }
        office.ok(b'C', [thread, thread % 2, 0], "", thread % 2);
    }
    for thread in THREADS..1_000 {
        let place = usize::from(thread) * 7 % MAX_LIVE_THREADS;
        office.no(b'S', [0, 0, 0], "", 10, 0);
        office.ok(b'E', [live[place], 0, 0], "", 1);
        office.no(b'E', [live[place], 0, 0], "", 2, 0);
        office.ok(b'S', [0, 0, 0], "", thread);
        office.no(b'R', [thread, 0, 0], "", 9, 0);
        office.ok(b'C', [thread, thread % 2, 0], "", thread % 2);
        live[place] = thread;
    }
    for thread in 0..1_000 {
        if live.contains(&thread) {
            office.no(b'N', [thread, 2, 0], "", 7, 0);
            office.ok(b'R', [thread, 0, 0], "", thread % 2);
            office.no(b'R', [thread, 0, 0], "", 9, 0);
        } else {
            office.no(b'N', [thread, 2, 0], "", 2, 0);
            office.no(b'R', [thread, 0, 0], "", 2, 0);
        }
    }
}

/// Thread 5 and the last stay.
pub(super) fn thread_numbers_run_out(guard: &mut dyn Guard) {
    let mut office = Office::with_totals(guard);
    for thread in 2..=LAST_THREAD {
        office.ok(b'S', [0, 0, 0], "", thread);
        if ![5, LAST_THREAD].contains(&thread) {
            office.ok(b'E', [thread, 0, 0], "", 0);
        }
    }
    office.no(b'S', [0, 0, 0], "", 10, 0);
    office.ok(b'L', [5, 2, 2], &format!("R{LAST_THREAD}|R5"), 3);
    office.ok(b'A', [5, 2, 2], "", 3);
    office.ok(b'A', [LAST_THREAD, 2, 2], "", 3);
    office.no(b'A', [1, 2, 2], "", 15, 0);
    office.no(b'D', [LAST_THREAD - 1, 3, 0], "", 2, 0);
    office.ok(b'D', [LAST_THREAD, 3, 0], "", 2);
    // Once all have ended, nobody edits any more.
    for thread in [0, 1, 5, LAST_THREAD] {
        office.ok(b'E', [thread, 0, 0], "", 0);
    }
    office.no(b'S', [0, 0, 0], "", 10, 0);
    for thread in [0, 1, 5, LAST_THREAD] {
        office.no(b'N', [thread, 0, 0], "", 2, 0);
    }
}

pub(super) fn lock_numbers_run_out(guard: &mut dyn Guard) {
    let mut office = Office::with_totals(guard);
    for lock in 3..=LAST_LOCK {
        office.ok(b'L', [lock % 2, 2, 2], "U0", lock);
        if lock != LAST_LOCK {
            office.ok(b'D', [0, lock, 0], "", 1);
        }
    }
    office.no(b'L', [0, 1, 1], "U0", 10, 0);
    office.no(b'L', [0, 1, 1], "U1", 11, 0);
    office.no(b'L', [2, 1, 1], "U0", 2, 0);
    office.ok(b'A', [0, 2, 2], "", LAST_LOCK);
    office.ok(b'D', [1, LAST_LOCK, 0], "", 1);
    office.no(b'L', [0, 1, 1], "U0", 10, 0);
}
