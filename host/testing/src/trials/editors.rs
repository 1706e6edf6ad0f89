//! Who edits (document 02, P4): the user of the thread in field a, if it is live.
//! Where it matters, threads have other numbers than their users, so that the one
//! can't be taken for the other.

use super::{Guard, Office};
use reference::limits::MAX_LIVE_THREADS;

const THREADS: u16 = MAX_LIVE_THREADS as u16;

pub(super) fn a_user_without_a_thread_edits_nothing(guard: &mut dyn Guard) {
    let mut office = Office::new(guard);
    office.ok(b'U', [0, 0, 0], "", 0);
    office.ok(b'U', [0, 0, 0], "", 1);
    office.no(b'N', [0, 0, 0], "", 2, 0);
    office.no(b'K', [1, 0, 0], "", 2, 0);
    // Thread 0 is user 1's. User 0 has none, and there is no thread 1.
    office.ok(b'S', [1, 0, 0], "", 0);
    office.no(b'N', [1, 0, 0], "", 2, 0);
    office.no(b'K', [1, 0, 0], "", 2, 0);
    office.ok(b'N', [0, 0, 0], "", 0);
    office.ok(b'K', [0, 0, 0], "", 0);
    office.no(b'G', [1, 0, 0], "", 2, 0);
    office.ok(b'G', [0, 0, 0], "", 2);
    office.no(b'T', [1, 0, 0], "", 2, 0);
    office.no(b'L', [1, 0, 1], "U1", 2, 0);
    office.ok(b'L', [0, 0, 1], "U1", 0);
    office.no(b'D', [1, 0, 0], "", 2, 0);
    // The segment is user 1's, and so is no other's.
    office.ok(b'S', [0, 0, 0], "", 1);
    office.no(b'T', [1, 0, 0], "", 6, 0);
    office.no(b'D', [1, 0, 0], "", 6, 0);
    office.ok(b'T', [0, 0, 0], "", 1);
    office.ok(b'D', [0, 0, 0], "", 1);
}

/// An edit by its letter, its fields b and c and its text, and the number by which
/// it is refused to thread 0.
type Refused = (u8, [u16; 2], &'static str, u32);

/// For each condition that comes after the thread's, of each letter, an edit that
/// meets it. That N and K are full is tried with the limits.
const REFUSED: [Refused; 26] = [
    (b'N', [2, 0], "", 7),
    (b'N', [65_535, 0], "", 7),
    (b'G', [4, 0], "", 3),
    (b'G', [4, 9], "", 3),
    (b'G', [0, 9], "", 4),
    (b'G', [3, 9], "", 4),
    (b'G', [3, 0], "", 6),
    (b'G', [3, 8], "", 6),
    (b'G', [0, 8], "", 6),
    (b'G', [0, 0], "", 8),
    (b'G', [1, 7], "", 10),
    (b'T', [4, 9], "", 3),
    (b'T', [0, 9], "", 4),
    (b'T', [3, 8], "", 6),
    (b'T', [0, 1], "", 9),
    (b'L', [4, 0], "", 3),
    (b'L', [3, 0], "", 6),
    (b'L', [0, 2], "U0", 7),
    (b'L', [2, 8], "U0", 7),
    (b'L', [0, 1], "", 11),
    (b'L', [0, 1], "U2", 11),
    (b'L', [0, 1], "D0&D1&D2&D3&D4&D5&D6", 12),
    (b'L', [0, 1], "D0&!D0", 13),
    (b'L', [2, 2], "U0", 10),
    (b'D', [9, 0], "", 5),
    (b'D', [4, 0], "", 6),
];

pub(super) fn a_thread_that_isnt_live_is_refused_before_all_else(guard: &mut dyn Guard) {
    let mut office = Office::with_totals(guard);
    office.ok(b'U', [0, 0, 0], "", 1);
    office.ok(b'S', [1, 0, 0], "", 2);
    office.ok(b'S', [1, 0, 0], "", 3);
    // D0 to D7 are user 0's, D8 is user 1's. The list of segment 1 is full.
    for key in 0..8 {
        office.ok(b'K', [0, 0, 0], "", key);
    }
    office.ok(b'K', [2, 0, 0], "", 8);
    office.ok(b'G', [0, 0, 0], "", 2);
    for key in 0..7 {
        office.ok(b'G', [0, 1, key], "", key + 2);
    }
    // Sheet 2 has eight products. Segment 3 and its lock are user 1's.
    office.ok(b'L', [0, 2, 2], "D0|D1|D2|D3|D4|D5|D6", 3);
    office.ok(b'N', [2, 0, 0], "", 3);
    office.ok(b'L', [2, 3, 1], "U1", 4);
    // Thread 1, of the owner, ends, and thread 3, of the other. 4 on were never
    // started.
    office.ok(b'E', [1, 0, 0], "", 0);
    office.ok(b'E', [3, 0, 0], "", 0);
    for thread in [1, 3, 4, THREADS, THREADS + 1, 256, 65_535] {
        for (letter, [b, c], text, _) in REFUSED {
            office.no(letter, [thread, b, c], text, 2, 0);
        }
        // Nor are those accepted that a live one's would be.
        office.no(b'N', [thread, 0, 0], "", 2, 0);
        office.no(b'K', [thread, 0, 0], "", 2, 0);
        office.no(b'G', [thread, 0, 1], "", 2, 0);
        office.no(b'T', [thread, 0, 0], "", 2, 0);
        office.no(b'L', [thread, 0, 1], "U0", 2, 0);
        office.no(b'D', [thread, 0, 0], "", 2, 0);
    }
    for (letter, [b, c], text, number) in REFUSED {
        office.no(letter, [0, b, c], text, number, 0);
    }
    office.ok(b'N', [0, 0, 0], "", 4);
    office.ok(b'K', [0, 0, 0], "", 9);
    office.ok(b'G', [0, 0, 1], "", 3);
    office.ok(b'T', [0, 0, 0], "", 2);
    office.ok(b'L', [0, 0, 1], "U0", 5);
    office.ok(b'D', [0, 0, 0], "", 1);
}

/// Threads 0 and 3 are user 1's, threads 1 and 2 are user 0's.
fn with_two_users(guard: &mut dyn Guard) -> Office<'_> {
    let mut office = Office::new(guard);
    office.ok(b'U', [0, 0, 0], "", 0);
    office.ok(b'U', [0, 0, 0], "", 1);
    for (user, thread) in [(1, 0), (0, 1), (0, 2), (1, 3)] {
        office.ok(b'S', [user, 0, 0], "", thread);
    }
    office
}

pub(super) fn any_thread_of_the_user_edits_and_no_other(guard: &mut dyn Guard) {
    let mut office = with_two_users(guard);
    // Code 0 and D0 are user 0's, sheet 1 and D1 are user 1's.
    office.ok(b'N', [1, 0, 0], "", 0);
    office.ok(b'N', [0, 1, 0], "", 1);
    office.ok(b'K', [1, 0, 0], "", 0);
    office.ok(b'K', [0, 0, 0], "", 1);

    for other in [0, 3] {
        office.no(b'G', [other, 0, 0], "", 6, 0);
        office.no(b'G', [other, 0, 1], "", 6, 0);
        // His own segment, and the other's key.
        office.no(b'G', [other, 1, 0], "", 6, 0);
    }
    for thread in [1, 2] {
        office.no(b'G', [thread, 1, 0], "", 6, 0);
        office.no(b'G', [thread, 1, 1], "", 6, 0);
        office.no(b'G', [thread, 0, 1], "", 6, 0);
    }
    // Made by the one thread, given by the other, taken by the first.
    office.ok(b'G', [2, 0, 0], "", 2);
    office.no(b'G', [1, 0, 0], "", 8, 0);
    office.ok(b'G', [3, 1, 1], "", 2);
    office.no(b'G', [0, 1, 1], "", 8, 0);
    for (other, thread) in [(0, 1), (3, 2)] {
        office.no(b'T', [other, 0, 0], "", 6, 0);
        office.no(b'T', [thread, 1, 1], "", 6, 0);
    }
    office.ok(b'T', [1, 0, 0], "", 1);
    office.no(b'T', [2, 0, 0], "", 9, 0);
    office.ok(b'T', [0, 1, 1], "", 1);
    office.no(b'T', [3, 1, 1], "", 9, 0);

    for (other, thread) in [(0, 1), (3, 2)] {
        office.no(b'L', [other, 0, 1], "U1", 6, 0);
        office.no(b'L', [thread, 1, 4], "U0", 6, 0);
    }
    office.ok(b'L', [2, 0, 1], "U0", 0);
    office.ok(b'L', [3, 1, 4], "S0", 1);
    for (other, thread) in [(0, 1), (3, 2)] {
        office.no(b'D', [other, 0, 0], "", 6, 0);
        office.no(b'D', [thread, 1, 0], "", 6, 0);
    }
    // An owner needs a lock like everybody else: U0 calls, and with S0 writes on
    // a sheet that isn't his.
    office.ok(b'C', [1, 0, 0], "", 0);
    office.ok(b'A', [1, 1, 4], "", 1);
    office.no(b'C', [0, 0, 0], "", 15, 0);
    office.no(b'A', [0, 1, 4], "", 15, 0);
    office.ok(b'D', [1, 0, 0], "", 1);
    office.ok(b'D', [0, 1, 0], "", 1);
}

pub(super) fn an_owner_stays_when_the_thread_ends(guard: &mut dyn Guard) {
    let mut office = with_two_users(guard);
    office.ok(b'N', [1, 0, 0], "", 0);
    office.ok(b'K', [1, 0, 0], "", 0);
    office.ok(b'L', [1, 0, 1], "U0", 0);
    office.ok(b'E', [1, 0, 0], "", 0);
    office.no(b'G', [1, 0, 0], "", 2, 0);
    office.ok(b'G', [2, 0, 0], "", 2);
    // No thread of user 0 is left, and nobody edits the segment.
    office.ok(b'E', [2, 0, 0], "", 0);
    for (thread, number) in [(0, 6), (1, 2), (2, 2), (3, 6)] {
        office.no(b'G', [thread, 0, 0], "", number, 0);
        office.no(b'T', [thread, 0, 0], "", number, 0);
        office.no(b'L', [thread, 0, 1], "U1", number, 0);
        office.no(b'D', [thread, 0, 0], "", number, 0);
    }
    // Thread 4 is user 1's, thread 5 user 0's, who goes on.
    office.ok(b'S', [1, 0, 0], "", 4);
    office.ok(b'S', [0, 0, 0], "", 5);
    office.no(b'T', [4, 0, 0], "", 6, 0);
    office.ok(b'T', [5, 0, 0], "", 1);
    office.ok(b'G', [5, 0, 0], "", 2);
    office.no(b'L', [4, 0, 1], "U1", 6, 0);
    office.ok(b'L', [5, 0, 1], "U1", 1);
    office.ok(b'C', [4, 0, 0], "", 1);
    office.ok(b'C', [5, 0, 0], "", 0);
    office.no(b'D', [4, 0, 0], "", 6, 0);
    office.ok(b'D', [5, 0, 0], "", 1);
    office.no(b'C', [5, 0, 0], "", 15, 0);
}

/// Thread 17 ends, and one of another user takes its place; then that one, and
/// one of the first user again.
pub(super) fn a_thread_at_a_freed_place_edits_for_its_own_user(guard: &mut dyn Guard) {
    let mut office = Office::with_totals(guard);
    office.ok(b'U', [0, 0, 0], "", 1);
    for thread in 2..THREADS {
        office.ok(b'S', [0, 0, 0], "", thread);
    }
    office.ok(b'L', [17, 0, 1], "U0", 3);
    office.ok(b'E', [17, 0, 0], "", 0);
    let theirs = THREADS;
    office.no(b'N', [theirs, 0, 0], "", 2, 0);
    office.ok(b'S', [1, 0, 0], "", theirs);
    office.no(b'N', [17, 0, 0], "", 2, 0);
    office.no(b'D', [17, 3, 0], "", 2, 0);
    office.no(b'D', [theirs, 3, 0], "", 6, 0);
    office.ok(b'N', [theirs, 0, 0], "", 3);
    office.ok(b'K', [theirs, 0, 0], "", 0);
    office.no(b'G', [0, 3, 0], "", 6, 0);
    office.no(b'G', [0, 0, 0], "", 6, 0);
    office.ok(b'G', [theirs, 3, 0], "", 2);
    office.ok(b'L', [theirs, 3, 1], "U1", 4);

    office.ok(b'E', [theirs, 0, 0], "", 0);
    let his = THREADS + 1;
    office.ok(b'S', [0, 0, 0], "", his);
    office.no(b'T', [theirs, 3, 0], "", 2, 0);
    office.no(b'T', [his, 3, 0], "", 6, 0);
    office.no(b'L', [his, 3, 1], "U0", 6, 0);
    office.no(b'D', [his, 4, 0], "", 6, 0);
    office.ok(b'D', [his, 3, 0], "", 1);
    // 17 and as many threads on, all of which would share one place.
    for thread in [17, 17 + THREADS, 17 + 2 * THREADS] {
        office.no(b'K', [thread, 0, 0], "", 2, 0);
    }
    office.ok(b'K', [his, 0, 0], "", 1);
}
