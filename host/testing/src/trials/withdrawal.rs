//! What a T takes from open calls (document 02, P5): the key, from every open call
//! of its segment, whoever's the thread is. A T that is refused takes nothing.

use super::{Guard, Office};
use reference::limits::{MAX_FRAMES, MAX_LIVE_THREADS};

const THREADS: u16 = MAX_LIVE_THREADS as u16;
const FRAMES: u16 = MAX_FRAMES as u16;

/// Threads 0 and 1 are user 0's, thread 2 is user 1's. Code 0 and 1, sheet 2, D0 and
/// D1 are user 0's. Both users may call, each segment by the lock with its number.
/// On the sheet D0 reads by lock 2, and who doesn't hold D0 writes by lock 3.
fn with_keys(guard: &mut dyn Guard) -> Office<'_> {
    let mut office = Office::new(guard);
    office.ok(b'U', [0, 0, 0], "", 0);
    office.ok(b'U', [0, 0, 0], "", 1);
    for (user, thread) in [(0, 0), (0, 1), (1, 2)] {
        office.ok(b'S', [user, 0, 0], "", thread);
    }
    for (kind, segment) in [(0, 0), (0, 1), (1, 2)] {
        office.ok(b'N', [0, kind, 0], "", segment);
    }
    office.ok(b'K', [0, 0, 0], "", 0);
    office.ok(b'K', [0, 0, 0], "", 1);
    office.ok(b'L', [0, 0, 1], "U0|U1", 0);
    office.ok(b'L', [0, 1, 1], "U0|U1", 1);
    office.ok(b'L', [0, 2, 2], "D0", 2);
    office.ok(b'L', [0, 2, 4], "!D0", 3);
    office
}

impl Office<'_> {
    /// The thread must hold D0.
    #[track_caller]
    fn holds(&mut self, thread: u16) {
        self.ok(b'A', [thread, 2, 2], "", 2);
        self.no(b'A', [thread, 2, 4], "", 15, 0);
    }

    /// The thread must not hold D0.
    #[track_caller]
    fn lacks(&mut self, thread: u16) {
        self.no(b'A', [thread, 2, 2], "", 15, 0);
        self.ok(b'A', [thread, 2, 4], "", 3);
    }

    /// The newest open call must be of this segment.
    #[track_caller]
    fn return_from(&mut self, thread: u16, segment: u16) {
        self.ok(b'R', [thread, 0, 0], "", segment);
    }
}

pub(super) fn a_taken_key_is_gone_from_the_open_call(guard: &mut dyn Guard) {
    let mut office = with_keys(guard);
    office.ok(b'G', [0, 0, 0], "", 2);
    office.lacks(0);
    office.ok(b'C', [0, 0, 0], "", 0);
    office.holds(0);
    office.ok(b'T', [0, 0, 0], "", 1);
    office.lacks(0);
    // Giving it again serves later calls only.
    office.ok(b'G', [0, 0, 0], "", 2);
    office.lacks(0);
    office.ok(b'C', [0, 0, 0], "", 0);
    office.holds(0);
    office.return_from(0, 0);
    office.lacks(0);
    office.ok(b'C', [0, 0, 0], "", 0);
    office.holds(0);
    // A second time, and with a call that is made without it.
    office.ok(b'T', [0, 0, 0], "", 1);
    office.lacks(0);
    office.ok(b'C', [0, 0, 0], "", 0);
    office.lacks(0);
    office.ok(b'G', [0, 0, 0], "", 2);
    office.lacks(0);
    for _ in 0..3 {
        office.return_from(0, 0);
        office.lacks(0);
    }
    office.no(b'R', [0, 0, 0], "", 9, 0);
}

/// So it isn't taken from that call, nor given to it.
pub(super) fn a_key_given_after_the_call_is_not_with_it(guard: &mut dyn Guard) {
    let mut office = with_keys(guard);
    office.ok(b'C', [0, 0, 0], "", 0);
    for _ in 0..2 {
        office.ok(b'G', [1, 0, 0], "", 2);
        office.lacks(0);
        office.ok(b'T', [1, 0, 0], "", 1);
        office.lacks(0);
    }
    office.ok(b'G', [1, 0, 0], "", 2);
    office.ok(b'C', [0, 0, 0], "", 0);
    office.holds(0);
    office.return_from(0, 0);
    office.lacks(0);
}

pub(super) fn another_segments_open_call_still_hands_it_over(guard: &mut dyn Guard) {
    let mut office = with_keys(guard);
    for segment in [0, 1, 2] {
        office.ok(b'G', [0, segment, 0], "", 2);
    }
    office.ok(b'C', [0, 0, 0], "", 0);
    office.ok(b'C', [0, 1, 0], "", 1);
    // A sheet has a list, and no open call.
    office.ok(b'T', [0, 2, 0], "", 1);
    office.holds(0);
    office.ok(b'T', [0, 0, 0], "", 1);
    office.holds(0);
    office.no(b'T', [0, 0, 0], "", 9, 0);
    office.holds(0);
    office.return_from(0, 1);
    office.lacks(0);
    office.ok(b'C', [0, 1, 0], "", 1);
    office.holds(0);
    // Segment 0 has it again, and its open call hasn't.
    office.ok(b'G', [0, 0, 0], "", 2);
    office.ok(b'T', [0, 1, 0], "", 1);
    office.lacks(0);
    // Of four open calls the third alone hands it over.
    office.ok(b'C', [0, 0, 0], "", 0);
    office.holds(0);
    office.ok(b'C', [0, 1, 0], "", 1);
    office.holds(0);
    office.return_from(0, 1);
    office.holds(0);
    for left in [0, 1, 0] {
        office.return_from(0, left);
        office.lacks(0);
    }
    // Taken from the newer of two open calls.
    office.ok(b'G', [0, 1, 0], "", 2);
    office.ok(b'C', [0, 0, 0], "", 0);
    office.ok(b'C', [0, 1, 0], "", 1);
    office.ok(b'T', [0, 1, 0], "", 1);
    office.holds(0);
    office.return_from(0, 1);
    office.holds(0);
    office.return_from(0, 0);
    office.lacks(0);
}

pub(super) fn every_open_call_of_the_segment_loses_it(guard: &mut dyn Guard) {
    let mut office = with_keys(guard);
    office.ok(b'G', [0, 0, 0], "", 2);
    for segment in [0, 1, 0, 0, 1] {
        office.ok(b'C', [0, segment, 0], "", segment);
    }
    office.holds(0);
    office.ok(b'T', [0, 0, 0], "", 1);
    office.lacks(0);
    for left in [1, 0, 0, 1, 0] {
        office.return_from(0, left);
        office.lacks(0);
    }
}

/// Thread 3 comes by way of the other segment.
pub(super) fn open_calls_of_every_thread_lose_it(guard: &mut dyn Guard) {
    let mut office = with_keys(guard);
    office.ok(b'G', [0, 0, 0], "", 2);
    office.ok(b'G', [0, 1, 0], "", 2);
    office.ok(b'S', [1, 0, 0], "", 3);
    for (thread, segment) in [(0, 0), (1, 0), (2, 0), (3, 1)] {
        office.ok(b'C', [thread, segment, 0], "", segment);
        office.holds(thread);
    }
    office.ok(b'T', [1, 0, 0], "", 1);
    for thread in [0, 1, 2] {
        office.lacks(thread);
    }
    office.holds(3);
    office.ok(b'G', [1, 0, 0], "", 2);
    for thread in [0, 1, 2] {
        office.lacks(thread);
    }
    office.ok(b'C', [2, 0, 0], "", 0);
    office.holds(2);
    office.lacks(0);
    office.lacks(1);
    // By a thread that has no open call.
    office.ok(b'S', [0, 0, 0], "", 4);
    office.ok(b'T', [4, 0, 0], "", 1);
    office.lacks(2);
    office.holds(3);
    office.ok(b'E', [2, 0, 0], "", 2);
    office.ok(b'E', [3, 0, 0], "", 1);
}

/// Threads with even numbers are user 0's, the others user 1's, but for 1 and 2.
pub(super) fn sixteen_open_calls_of_sixty_four_threads_lose_it(guard: &mut dyn Guard) {
    let mut office = with_keys(guard);
    for thread in 3..THREADS {
        office.ok(b'S', [thread % 2, 0, 0], "", thread);
    }
    office.ok(b'G', [0, 0, 0], "", 2);
    for thread in 0..THREADS {
        for _ in 0..FRAMES {
            office.ok(b'C', [thread, 0, 0], "", 0);
        }
    }
    office.no(b'T', [THREADS - 1, 0, 0], "", 6, 0);
    for thread in 0..THREADS {
        office.holds(thread);
    }
    office.ok(b'T', [THREADS - 2, 0, 0], "", 1);
    for thread in 0..THREADS {
        office.lacks(thread);
    }
    // They are open as before.
    for thread in 0..THREADS {
        office.no(b'C', [thread, 0, 0], "", 10, 0);
        for _ in 0..FRAMES {
            office.return_from(thread, 0);
            office.lacks(thread);
        }
        office.no(b'R', [thread, 0, 0], "", 9, 0);
    }
}

/// Of sixteen open calls the newest alone hands it over, then the oldest alone.
pub(super) fn one_of_sixteen_open_calls_loses_it(guard: &mut dyn Guard) {
    let mut office = with_keys(guard);
    for _ in 1..FRAMES {
        office.ok(b'C', [0, 0, 0], "", 0);
    }
    office.ok(b'G', [0, 0, 0], "", 2);
    office.lacks(0);
    office.ok(b'C', [0, 0, 0], "", 0);
    office.holds(0);
    office.ok(b'T', [0, 0, 0], "", 1);
    office.lacks(0);
    office.ok(b'E', [0, 0, 0], "", FRAMES);

    office.ok(b'S', [0, 0, 0], "", 3);
    office.ok(b'G', [3, 0, 0], "", 2);
    office.ok(b'C', [3, 0, 0], "", 0);
    for _ in 1..FRAMES {
        office.ok(b'C', [3, 1, 0], "", 1);
    }
    office.holds(3);
    office.ok(b'T', [3, 0, 0], "", 1);
    office.lacks(3);
    office.ok(b'E', [3, 0, 0], "", FRAMES);
}

/// Sheet 3 is read but by who holds D0, and written but by who doesn't. Segment 1 is
/// shut to who holds it, and segment 4 has a lock for either.
pub(super) fn locks_that_bar_it_and_locks_that_deny(guard: &mut dyn Guard) {
    let mut office = with_keys(guard);
    office.ok(b'N', [0, 1, 0], "", 3);
    office.ok(b'L', [0, 3, 2], "U0|U1", 4);
    office.ok(b'L', [0, 3, 10], "D0", 5);
    office.ok(b'L', [0, 3, 4], "U0|U1", 6);
    office.ok(b'L', [0, 3, 12], "!D0", 7);
    office.ok(b'L', [0, 1, 9], "D0", 8);
    office.ok(b'N', [0, 0, 0], "", 4);
    office.ok(b'L', [0, 4, 1], "D0", 9);
    office.ok(b'L', [0, 4, 1], "!D0&S0", 10);
    office.ok(b'G', [0, 0, 0], "", 2);
    office.ok(b'C', [0, 0, 0], "", 0);
    office.no(b'A', [0, 3, 2], "", 14, 5);
    office.ok(b'A', [0, 3, 4], "", 6);
    office.no(b'C', [0, 1, 0], "", 14, 8);
    office.ok(b'C', [0, 4, 0], "", 9);
    // The call that D0 let in stays open without it.
    office.ok(b'T', [1, 0, 0], "", 1);
    office.ok(b'A', [0, 3, 2], "", 4);
    office.no(b'A', [0, 3, 4], "", 14, 7);
    office.return_from(0, 4);
    office.ok(b'C', [0, 4, 0], "", 10);
    office.ok(b'C', [0, 1, 0], "", 1);
    office.ok(b'G', [1, 0, 0], "", 2);
    office.ok(b'A', [0, 3, 2], "", 4);
    office.no(b'A', [0, 3, 4], "", 14, 7);
    office.ok(b'C', [0, 4, 0], "", 10);
    office.ok(b'C', [0, 0, 0], "", 0);
    office.no(b'A', [0, 3, 2], "", 14, 5);
    office.ok(b'A', [0, 3, 4], "", 6);
    office.no(b'C', [0, 1, 0], "", 14, 8);
    office.ok(b'C', [0, 4, 0], "", 9);
}

/// Threads 0 and 2, of both users, have an open call with the key.
pub(super) fn a_refused_take_withdraws_nothing(guard: &mut dyn Guard) {
    let mut office = with_keys(guard);
    office.ok(b'G', [0, 0, 0], "", 2);
    office.ok(b'S', [0, 0, 0], "", 3);
    office.ok(b'E', [3, 0, 0], "", 0);
    for (thread, segment) in [(0, 0), (2, 0), (0, 1)] {
        office.ok(b'C', [thread, segment, 0], "", segment);
    }
    for (fields, number) in [
        // Ended, and never started.
        ([3, 0, 0], 2),
        ([4, 0, 0], 2),
        ([THREADS, 0, 0], 2),
        ([65_535, 0, 0], 2),
        ([0, 3, 0], 3),
        ([0, 64, 0], 3),
        ([0, 65_535, 0], 3),
        ([0, 0, 2], 4),
        ([0, 0, 64], 4),
        ([0, 0, 65_472], 4),
        ([0, 0, 65_535], 4),
        ([2, 0, 0], 6),
        ([2, 0, 1], 6),
        ([2, 1, 0], 6),
        // In another list, in none, and not in the sheet's.
        ([0, 1, 0], 9),
        ([0, 0, 1], 9),
        ([0, 2, 0], 9),
        // The first condition in the table's order.
        ([3, 3, 2], 2),
        ([2, 3, 2], 3),
        ([2, 0, 2], 4),
    ] {
        office.no(b'T', fields, "", number, 0);
        office.holds(0);
        office.holds(2);
    }
    office.no(b'T', [0, 0, 0], "D0", 18, 0);
    office.no(b't', [0, 0, 0], "", 18, 0);
    office.holds(0);
    office.holds(2);
    office.ok(b'T', [0, 0, 0], "", 1);
    office.lacks(0);
    office.lacks(2);
}

/// S0 has the number of D0, and S1 that of D1. By lock 5 who holds S1 and not D1
/// writes to sheet 3.
pub(super) fn the_segments_own_key_stays(guard: &mut dyn Guard) {
    let mut office = with_keys(guard);
    office.ok(b'N', [0, 1, 0], "", 3);
    office.ok(b'L', [0, 3, 2], "S0", 4);
    office.ok(b'L', [0, 3, 4], "S1&!D1", 5);
    office.ok(b'C', [0, 0, 0], "", 0);
    office.no(b'T', [0, 0, 0], "", 9, 0);
    office.ok(b'A', [0, 3, 2], "", 4);
    office.return_from(0, 0);

    office.ok(b'G', [0, 0, 0], "", 2);
    office.ok(b'G', [0, 1, 1], "", 2);
    office.ok(b'C', [0, 0, 0], "", 0);
    office.ok(b'C', [0, 1, 0], "", 1);
    office.ok(b'A', [0, 3, 2], "", 4);
    office.no(b'A', [0, 3, 4], "", 15, 0);
    office.ok(b'T', [0, 0, 0], "", 1);
    office.ok(b'T', [0, 1, 1], "", 1);
    office.ok(b'A', [0, 3, 2], "", 4);
    office.ok(b'A', [0, 3, 4], "", 5);
    office.no(b'T', [0, 0, 0], "", 9, 0);
    office.no(b'T', [0, 1, 1], "", 9, 0);
    office.ok(b'A', [0, 3, 2], "", 4);
    office.ok(b'A', [0, 3, 4], "", 5);
    office.return_from(0, 1);
    office.ok(b'A', [0, 3, 2], "", 4);
    office.no(b'A', [0, 3, 4], "", 15, 0);
    office.return_from(0, 0);
    office.no(b'A', [0, 3, 2], "", 15, 0);
}

/// A list of eight keys, of which the fourth is taken and another comes into it,
/// then the first and the last of those that the open call still has.
pub(super) fn the_other_keys_of_the_list_stay(guard: &mut dyn Guard) {
    let mut office = with_keys(guard);
    for key in 2..8 {
        office.ok(b'K', [1, 0, 0], "", key);
    }
    office.ok(b'N', [0, 1, 0], "", 3);
    office.ok(b'L', [0, 3, 2], "D0&D1&D2&D4&D5&D6", 4);
    office.ok(b'L', [0, 3, 2], "D3", 5);
    office.ok(b'L', [0, 3, 4], "D7", 6);
    office.ok(b'L', [0, 3, 4], "!D0&D1&D2&!D3&D4&!D6", 7);
    for key in 0..7 {
        office.ok(b'G', [0, 0, key], "", key + 2);
    }
    office.ok(b'C', [0, 0, 0], "", 0);
    office.ok(b'A', [0, 3, 2], "", 4);
    office.no(b'A', [0, 3, 4], "", 15, 0);
    office.ok(b'T', [1, 0, 3], "", 7);
    office.ok(b'A', [0, 3, 2], "", 4);
    office.ok(b'G', [1, 0, 7], "", 8);
    office.no(b'A', [0, 3, 4], "", 15, 0);
    office.ok(b'C', [0, 0, 0], "", 0);
    office.ok(b'A', [0, 3, 4], "", 6);
    office.return_from(0, 0);
    office.no(b'A', [0, 3, 4], "", 15, 0);
    office.ok(b'A', [0, 3, 2], "", 4);
    office.ok(b'D', [0, 4, 0], "", 1);
    office.no(b'A', [0, 3, 2], "", 15, 0);
    office.ok(b'T', [1, 0, 0], "", 7);
    office.no(b'A', [0, 3, 4], "", 15, 0);
    office.ok(b'T', [1, 0, 6], "", 6);
    office.ok(b'A', [0, 3, 4], "", 7);
}

/// Thread 2, of the other user, has the open call. Thread 0 gave the key and ends.
pub(super) fn any_thread_of_the_owner_takes_it(guard: &mut dyn Guard) {
    let mut office = with_keys(guard);
    office.ok(b'G', [0, 0, 0], "", 2);
    office.ok(b'C', [2, 0, 0], "", 0);
    office.ok(b'T', [1, 0, 0], "", 1);
    office.lacks(2);
    office.ok(b'G', [0, 0, 0], "", 2);
    office.ok(b'C', [2, 0, 0], "", 0);
    office.ok(b'E', [0, 0, 0], "", 0);
    office.ok(b'E', [1, 0, 0], "", 0);
    office.no(b'T', [0, 0, 0], "", 2, 0);
    office.no(b'T', [2, 0, 0], "", 6, 0);
    office.holds(2);
    office.ok(b'S', [0, 0, 0], "", 3);
    office.ok(b'T', [3, 0, 0], "", 1);
    office.lacks(2);
}

/// Thread 17 ends with two open calls, and the key is taken before another takes its
/// place, and after.
pub(super) fn a_thread_at_a_freed_place_has_calls_of_its_own(guard: &mut dyn Guard) {
    let mut office = with_keys(guard);
    for thread in 3..THREADS {
        office.ok(b'S', [1, 0, 0], "", thread);
    }
    office.ok(b'G', [0, 0, 0], "", 2);
    office.ok(b'C', [17, 0, 0], "", 0);
    office.ok(b'C', [17, 0, 0], "", 0);
    office.ok(b'E', [17, 0, 0], "", 2);
    office.ok(b'T', [0, 0, 0], "", 1);
    let new = THREADS;
    office.ok(b'S', [1, 0, 0], "", new);
    office.lacks(new);
    office.ok(b'G', [0, 0, 0], "", 2);
    office.ok(b'C', [new, 1, 0], "", 1);
    office.lacks(new);
    office.ok(b'C', [new, 0, 0], "", 0);
    office.holds(new);
    office.ok(b'T', [0, 0, 0], "", 1);
    office.lacks(new);
    office.return_from(new, 0);
    office.return_from(new, 1);
    office.no(b'R', [new, 0, 0], "", 9, 0);
    office.lacks(new);
}
