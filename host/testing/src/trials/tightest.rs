//! Which grant lock answers where several open (document 02, P6): the one whose longest
//! product that opens has most signed keys, and of equal ones the lowest. Of deny locks
//! it is the lowest, as before.

use super::{Guard, Office};
use reference::limits::{LOCK_NUMBERS, MAX_FRAMES, MAX_LITERALS, MAX_SEGMENT_PRODUCTS};

const FRAMES: u16 = MAX_FRAMES as u16;
const PRODUCTS: u16 = MAX_SEGMENT_PRODUCTS as u16;
const LAST_LOCK: u16 = (LOCK_NUMBERS - 1) as u16;
/// What thread 0 holds.
const HELD: [&str; MAX_LITERALS] = ["U0", "R0", "S0", "D0", "D1", "D2"];

/// Threads 0 and 1, code 0 and 2, sheet 1 and D0 to D5 are user 0's. Code 0 has lock 0,
/// `U0`, and hands over D0, D1 and D2. Thread 0 is in it, so it holds U0, R0, S0, D0, D1
/// and D2; thread 1 holds U0 and R1. Nobody holds D3, D4 or D5.
fn inside(guard: &mut dyn Guard) -> Office<'_> {
    let mut office = Office::new(guard);
    office.ok(b'U', [0, 0, 0], "", 0);
    office.ok(b'S', [0, 0, 0], "", 0);
    office.ok(b'S', [0, 0, 0], "", 1);
    for (kind, segment) in [(0, 0), (1, 1), (0, 2)] {
        office.ok(b'N', [0, kind, 0], "", segment);
    }
    for key in 0..6 {
        office.ok(b'K', [0, 0, 0], "", key);
    }
    for key in 0..3 {
        office.ok(b'G', [0, 0, key], "", key + 2);
    }
    office.ok(b'L', [0, 0, 1], "U0", 0);
    office.ok(b'C', [0, 0, 0], "", 0);
    office
}

impl Office<'_> {
    /// A lock to read sheet 1.
    #[track_caller]
    fn lock(&mut self, text: &str, number: u16) {
        self.ok(b'L', [0, 1, 2], text, number);
    }

    /// Drops a lock, which must have so many products.
    #[track_caller]
    fn drop_lock(&mut self, number: u16, products: u16) {
        self.ok(b'D', [0, number, 0], "", products);
    }

    /// The thread must read sheet 1 by this lock.
    #[track_caller]
    fn reads(&mut self, thread: u16, lock: u16) {
        self.ok(b'A', [thread, 1, 2], "", lock);
    }
}

/// And a shorter one that comes after it doesn't.
pub(super) fn a_longer_lock_answers_though_it_is_later(guard: &mut dyn Guard) {
    let mut office = inside(guard);
    office.no(b'A', [0, 1, 2], "", 15, 0);
    office.lock("U0", 1);
    office.reads(0, 1);
    office.lock("U0&R0", 2);
    office.reads(0, 2);
    office.lock("D0&D1&D2", 3);
    office.reads(0, 3);
    office.lock("U0", 4);
    office.lock("D2&D1", 5);
    office.reads(0, 3);
    office.lock("D2&D1&D0&S0&R0&U0", 6);
    office.reads(0, 6);
    // For thread 1 locks 1 and 4 open, by one key each.
    office.reads(1, 1);
    // Outside, thread 0 holds U0 and R0 alone.
    office.ok(b'R', [0, 0, 0], "", 0);
    office.reads(0, 2);
    office.ok(b'C', [0, 0, 0], "", 0);
    office.reads(0, 6);
}

/// Every two of one to six keys, the shorter first, the longer first, and both equal.
pub(super) fn every_length_beside_every_other(guard: &mut dyn Guard) {
    let mut office = inside(guard);
    let mut next = 1;
    for first in 1..=HELD.len() {
        for second in 1..=HELD.len() {
            office.lock(&HELD[..first].join("&"), next);
            office.lock(&HELD[HELD.len() - second..].join("&"), next + 1);
            office.reads(0, if second > first { next + 1 } else { next });
            office.drop_lock(next, 1);
            office.reads(0, next + 1);
            office.drop_lock(next + 1, 1);
            next += 2;
        }
    }
}

/// Whichever keys they name, and whichever lock stood before.
pub(super) fn equal_ones_go_to_the_lower_number(guard: &mut dyn Guard) {
    let mut office = inside(guard);
    office.lock("R0", 1);
    office.lock("D1&D2", 2);
    office.lock("U0&R0", 3);
    office.lock("S0&D0", 4);
    office.reads(0, 2);
    office.drop_lock(2, 1);
    office.reads(0, 3);
    // It takes the freed place and has a higher number.
    office.lock("D1&D2", 5);
    office.reads(0, 3);
    office.drop_lock(3, 1);
    office.reads(0, 4);
    office.drop_lock(4, 1);
    office.reads(0, 5);
    office.drop_lock(5, 1);
    office.reads(0, 1);
    // Lock 7 has two products of two keys that open, which is no more than one.
    office.lock("D0&D1", 6);
    office.lock("D0&D2|D1&D2", 7);
    office.reads(0, 6);
}

/// Lock 1 has a product of four keys with some that nobody holds, and lock 2 one with a
/// barred key that thread 0 holds. So their longest that opens is `D0`.
pub(super) fn a_product_that_doesnt_open_counts_for_nothing(guard: &mut dyn Guard) {
    let mut office = inside(guard);
    office.lock("U0&D3&D4&D5|D0", 1);
    office.lock("D0|U0&R0&S0&!D2", 2);
    office.reads(0, 1);
    office.lock("U0&R0", 3);
    office.reads(0, 3);
    // U0 D0, U0 D1 D4, D0 D3 and D1 D3 D4: of these U0 D0 alone opens.
    office.drop_lock(1, 2);
    office.lock("(U0|D3)&(D0|D1&D4)", 4);
    office.reads(0, 3);
    office.drop_lock(3, 1);
    office.reads(0, 4);
    // With D4, which comes with a later call, U0 D1 D4 opens too.
    office.lock("S0&D0", 5);
    office.ok(b'G', [1, 0, 4], "", 5);
    office.reads(0, 4);
    office.drop_lock(4, 4);
    office.reads(0, 5);
    office.lock("(U0|D3)&(D0|D1&D4)", 6);
    office.reads(0, 5);
    office.ok(b'C', [0, 0, 0], "", 0);
    office.reads(0, 6);
    office.ok(b'R', [0, 0, 0], "", 0);
    office.reads(0, 5);
}

/// Nor the last, nor the first that opens.
pub(super) fn the_longest_product_neednt_be_the_first(guard: &mut dyn Guard) {
    let mut office = inside(guard);
    office.lock("D0&D1", 1);
    office.lock("D0|U0&R0&S0|D1", 2);
    office.reads(0, 2);
    // Its first product doesn't open, its second opens by one key, its third by four.
    office.lock("D3|D2|U0&R0&S0&D0", 3);
    office.reads(0, 3);
    office.lock("D0&D1&D2", 4);
    office.reads(0, 3);
    office.drop_lock(3, 3);
    // Three keys open both, in lock 2 by its second product.
    office.reads(0, 2);
    office.drop_lock(2, 3);
    office.reads(0, 4);
}

/// Sheets 3 to 10 have eight locks of one product each, of which the tightest is at each
/// place. Sheets 11 to 17 have a lock of two keys, and then one of seven products, of
/// which the longest, of three keys, is at each place.
pub(super) fn the_tightest_at_every_place(guard: &mut dyn Guard) {
    let mut office = inside(guard);
    let mut next = 1;
    for place in 0..PRODUCTS {
        let sheet = 3 + place;
        office.ok(b'N', [0, 1, 0], "", sheet);
        for of in 0..PRODUCTS {
            let text = if of == place { "U0&R0" } else { "U0" };
            office.ok(b'L', [0, sheet, 2], text, next + of);
        }
        office.ok(b'A', [0, sheet, 2], "", next + place);
        office.ok(b'A', [1, sheet, 2], "", next + u16::from(place == 0));
        next += PRODUCTS;
    }
    for place in 0..=HELD.len() {
        let sheet = 11 + place as u16;
        office.ok(b'N', [0, 1, 0], "", sheet);
        office.ok(b'L', [0, sheet, 2], "U0&R0", next);
        let mut products = HELD.to_vec();
        products.insert(place, "D0&D1&D2");
        office.ok(b'L', [0, sheet, 2], &products.join("|"), next + 1);
        office.ok(b'A', [0, sheet, 2], "", next + 1);
        // For thread 1 the lock of two keys doesn't open.
        office.ok(b'A', [1, sheet, 2], "", next + 1);
        next += 2;
    }
}

/// By `!(D3|D4)` both are barred in one product, by `!(D3&D4)` each in one of its own.
pub(super) fn barred_keys_count_as_plain_ones(guard: &mut dyn Guard) {
    let mut office = inside(guard);
    office.lock("U0&D0", 1);
    office.reads(0, 1);
    office.lock("!(D3&D4)", 2);
    office.reads(0, 1);
    office.reads(1, 2);
    office.lock("!(D3|D4)", 3);
    office.reads(0, 1);
    office.reads(1, 3);
    office.lock("!D3&!D4&!D5", 4);
    office.reads(0, 4);
    office.reads(1, 4);
    // As many, two plain and one barred, and then one more.
    office.lock("U0&D0&!D3", 5);
    office.reads(0, 4);
    office.lock("U0&!D3&!D4&!R1", 6);
    office.reads(0, 6);
    // R1 is thread 1's own.
    office.reads(1, 4);
    office.drop_lock(4, 1);
    office.reads(0, 6);
    office.reads(1, 3);
    office.drop_lock(6, 1);
    office.reads(0, 5);
    // `!!D0` is the plain key, and one of them.
    office.lock("!!D0", 7);
    for lock in [1, 3, 5] {
        office.drop_lock(lock, 1);
    }
    office.reads(0, 2);
    office.drop_lock(2, 2);
    office.reads(0, 7);
    office.no(b'A', [1, 1, 2], "", 15, 0);
}

/// `D0|D0&D1` opens for whoever holds D0, and has a product of two keys all the same. A
/// product is a set, so a key that is written twice counts once.
pub(super) fn nothing_else_is_simplified(guard: &mut dyn Guard) {
    let mut office = inside(guard);
    office.lock("U0", 1);
    office.lock("D0&D0&D0", 2);
    office.reads(0, 1);
    // D3 isn't held, so the product of two doesn't open.
    office.lock("D0|D0&D3", 3);
    office.reads(0, 1);
    office.lock("D0|D0&D1", 4);
    office.reads(0, 4);
    office.lock("U0&S0", 5);
    office.reads(0, 4);
    office.drop_lock(4, 2);
    office.reads(0, 5);
    // D0 D1 and D0.
    office.lock("D0&(D1|D0)", 6);
    office.reads(0, 5);
    office.drop_lock(5, 1);
    office.reads(0, 6);
    office.drop_lock(6, 2);
    office.reads(0, 1);
    // What is both plain and barred goes, and D1 is left.
    office.lock("D1|D0&!D0&U0&R0&S0", 7);
    office.reads(0, 1);
    office.drop_lock(7, 1);
    // Both are D0 D1, and the repeat goes.
    office.lock("D0&D1|D1&D0", 8);
    office.reads(0, 8);
    office.drop_lock(8, 1);
}

pub(super) fn a_dropped_lock_gives_the_next_back(guard: &mut dyn Guard) {
    let mut office = inside(guard);
    for (lock, keys) in (1..).zip([1, 2, 3, 4]) {
        office.lock(&HELD[..keys].join("&"), lock);
    }
    office.reads(0, 4);
    office.drop_lock(4, 1);
    office.reads(0, 3);
    // One that doesn't answer may go, too.
    office.drop_lock(2, 1);
    office.reads(0, 3);
    office.drop_lock(3, 1);
    office.reads(0, 1);
    office.lock("U0&R0", 5);
    office.reads(0, 5);
    office.drop_lock(1, 1);
    office.reads(0, 5);
    office.drop_lock(5, 1);
    office.no(b'A', [0, 1, 2], "", 15, 0);
}

/// The lowest that opens is given, whether it is the shortest or the longest. Lock 1
/// doesn't open.
pub(super) fn deny_locks_keep_their_order(guard: &mut dyn Guard) {
    let mut office = inside(guard);
    office.ok(b'L', [0, 1, 10], "U0&D3", 1);
    office.ok(b'L', [0, 1, 10], "U0", 2);
    office.ok(b'L', [0, 1, 10], "U0&R0&S0", 3);
    office.lock("U0&R0&S0&D0&D1&D2", 4);
    office.no(b'A', [0, 1, 2], "", 14, 2);
    office.no(b'A', [1, 1, 2], "", 14, 2);
    office.ok(b'L', [0, 1, 10], "U0&R0", 5);
    office.drop_lock(2, 1);
    office.no(b'A', [0, 1, 2], "", 14, 3);
    office.no(b'A', [1, 1, 2], "", 15, 0);
    office.drop_lock(3, 1);
    office.no(b'A', [0, 1, 2], "", 14, 5);
    office.drop_lock(5, 1);
    office.reads(0, 4);
    // The same of calls.
    office.ok(b'L', [0, 2, 9], "D0", 6);
    office.ok(b'L', [0, 2, 9], "D0&D1", 7);
    office.ok(b'L', [0, 2, 1], "U0", 8);
    office.no(b'C', [0, 2, 0], "", 14, 6);
    office.drop_lock(6, 1);
    office.no(b'C', [0, 2, 0], "", 14, 7);
    office.ok(b'C', [1, 2, 0], "", 8);
}

/// It has one key and the last number, and still it denies. Lock 5 lies between two
/// grant locks.
pub(super) fn a_deny_lock_after_several_grant_locks(guard: &mut dyn Guard) {
    let mut office = inside(guard);
    office.lock("U0", 1);
    office.lock("U0&R0&S0&D0&D1&D2", 2);
    office.lock("U0&R0", 3);
    office.ok(b'L', [0, 1, 10], "U0", 4);
    office.no(b'A', [0, 1, 2], "", 14, 4);
    office.no(b'A', [1, 1, 2], "", 14, 4);
    office.drop_lock(4, 1);
    office.reads(0, 2);
    office.ok(b'L', [0, 1, 10], "R1", 5);
    office.lock("U0&!D3", 6);
    office.reads(0, 2);
    office.no(b'A', [1, 1, 2], "", 14, 5);
    office.drop_lock(5, 1);
    office.reads(1, 6);
    // The same of calls.
    for (lock, text) in [(7, "U0"), (8, "U0&S0"), (9, "D0&D1&D2")] {
        office.ok(b'L', [0, 2, 1], text, lock);
    }
    office.ok(b'L', [0, 2, 9], "R0", 10);
    office.no(b'C', [0, 2, 0], "", 14, 10);
    office.ok(b'C', [1, 2, 0], "", 7);
}

/// Nor does one of another segment. Lock 3 is for both operations.
pub(super) fn a_longer_lock_of_another_operation_doesnt_answer(guard: &mut dyn Guard) {
    let mut office = inside(guard);
    office.lock("U0", 1);
    office.ok(b'L', [0, 1, 4], "U0&R0&S0", 2);
    office.reads(0, 1);
    office.ok(b'A', [0, 1, 4], "", 2);
    office.ok(b'L', [0, 1, 6], "U0&R0", 3);
    office.reads(0, 3);
    office.ok(b'A', [0, 1, 4], "", 2);
    office.ok(b'N', [0, 1, 0], "", 3);
    office.ok(b'L', [0, 3, 6], "U0&R0&S0&D0&D1", 4);
    office.reads(0, 3);
    office.ok(b'A', [0, 1, 4], "", 2);
    office.ok(b'A', [0, 3, 2], "", 4);
    office.drop_lock(2, 1);
    office.ok(b'A', [0, 1, 4], "", 3);
    // Who writes is denied, and who reads isn't.
    office.ok(b'L', [0, 1, 12], "U0", 5);
    office.no(b'A', [0, 1, 4], "", 14, 5);
    office.reads(0, 3);
    office.drop_lock(3, 1);
    office.reads(0, 1);
    office.no(b'A', [0, 1, 4], "", 14, 5);
    office.drop_lock(5, 1);
    office.no(b'A', [0, 1, 4], "", 15, 0);
    // The tightest for both answers both, and then each has its own.
    office.ok(b'L', [0, 1, 4], "R0", 6);
    office.ok(b'L', [0, 1, 6], "R0&S0&D0", 7);
    office.reads(0, 7);
    office.ok(b'A', [0, 1, 4], "", 7);
    office.drop_lock(7, 1);
    office.reads(0, 1);
    office.ok(b'A', [0, 1, 4], "", 6);
}

/// A call is judged by what is held before it. Lock 0 is the first of all numbers.
pub(super) fn calls_are_answered_by_the_tightest_too(guard: &mut dyn Guard) {
    let mut office = inside(guard);
    office.ok(b'L', [0, 2, 1], "U0", 1);
    office.ok(b'L', [0, 2, 1], "U0&S0", 2);
    office.ok(b'L', [0, 2, 1], "U0&R0&!D3", 3);
    office.ok(b'L', [0, 2, 1], "S0&S2&D0&D1", 4);
    office.ok(b'C', [1, 2, 0], "", 1);
    office.ok(b'C', [0, 2, 0], "", 3);
    office.ok(b'C', [0, 2, 0], "", 4);
    office.ok(b'R', [0, 0, 0], "", 2);
    office.ok(b'C', [0, 2, 0], "", 4);
    for _ in 0..2 {
        office.ok(b'R', [0, 0, 0], "", 2);
    }
    office.ok(b'C', [0, 2, 0], "", 3);
    office.drop_lock(3, 1);
    office.drop_lock(4, 1);
    office.ok(b'C', [0, 2, 0], "", 2);
    // Whichever lock answers, the call hands over the same.
    office.lock("S2", 5);
    office.reads(0, 5);
    office.reads(1, 5);
    // Lock 0 against others of one key, and of two.
    office.ok(b'L', [0, 0, 1], "R0|R1", 6);
    office.ok(b'C', [0, 0, 0], "", 0);
    office.ok(b'L', [0, 0, 1], "U0&S0", 7);
    office.ok(b'C', [0, 0, 0], "", 7);
    office.ok(b'C', [1, 0, 0], "", 0);
    office.ok(b'C', [1, 0, 0], "", 7);
    office.drop_lock(0, 1);
    office.ok(b'C', [1, 0, 0], "", 7);
    office.drop_lock(7, 1);
    office.ok(b'C', [1, 0, 0], "", 6);
}

/// Thread 0 has one open call at first. Whether a lock opens comes before 10.
pub(super) fn sixteen_open_calls_are_full_however_many_locks_open(guard: &mut dyn Guard) {
    let mut office = inside(guard);
    office.ok(b'L', [0, 2, 1], "U0", 1);
    office.ok(b'L', [0, 2, 1], "U0&S0", 2);
    for _ in 1..FRAMES {
        office.ok(b'C', [0, 2, 0], "", 2);
    }
    office.no(b'C', [0, 2, 0], "", 10, 0);
    office.no(b'C', [0, 0, 0], "", 10, 0);
    office.ok(b'L', [0, 2, 1], "U0&S0&S2", 3);
    office.no(b'C', [0, 2, 0], "", 10, 0);
    office.ok(b'L', [0, 2, 9], "D0", 4);
    office.no(b'C', [0, 2, 0], "", 14, 4);
    office.drop_lock(4, 1);
    // An access has no such limit.
    office.lock("U0", 5);
    office.lock("S0&S2", 6);
    office.reads(0, 6);
    office.ok(b'R', [0, 0, 0], "", 2);
    office.ok(b'C', [0, 2, 0], "", 3);
    office.no(b'C', [0, 2, 0], "", 10, 0);
    for (lock, products) in [(1, 1), (2, 1), (3, 1)] {
        office.drop_lock(lock, products);
    }
    office.no(b'C', [0, 2, 0], "", 15, 0);
    office.ok(b'E', [0, 0, 0], "", FRAMES);
}

/// What is taken is gone from the open call (P5), so a looser lock answers, or a tighter
/// one that bars the key. Thread 1 takes, and thread 0 is in the call.
pub(super) fn a_taken_key_makes_another_lock_answer(guard: &mut dyn Guard) {
    let mut office = inside(guard);
    office.lock("U0", 1);
    office.lock("D0&D1", 2);
    office.lock("D0&D1&D2", 3);
    office.reads(0, 3);
    office.ok(b'T', [1, 0, 2], "", 3);
    office.reads(0, 2);
    // Giving it again serves later calls only.
    office.ok(b'G', [1, 0, 2], "", 4);
    office.reads(0, 2);
    office.ok(b'C', [0, 0, 0], "", 0);
    office.reads(0, 3);
    office.ok(b'R', [0, 0, 0], "", 0);
    office.reads(0, 2);
    office.ok(b'T', [1, 0, 0], "", 3);
    office.reads(0, 1);
    // D1 is held still, D0 and D2 aren't.
    office.lock("!D0&D1&!D2&S0", 4);
    office.reads(0, 4);
    office.ok(b'C', [0, 0, 0], "", 0);
    office.reads(0, 1);
    office.ok(b'T', [1, 0, 2], "", 2);
    office.reads(0, 4);
    office.ok(b'T', [1, 0, 1], "", 1);
    office.reads(0, 1);
    // A T that is refused takes nothing.
    office.ok(b'G', [1, 0, 1], "", 2);
    office.ok(b'C', [0, 0, 0], "", 0);
    office.reads(0, 4);
    office.no(b'T', [1, 2, 1], "", 9, 0);
    office.reads(0, 4);
    // The same of a call.
    office.ok(b'L', [0, 2, 1], "U0", 5);
    office.ok(b'L', [0, 2, 1], "D1&S0", 6);
    office.ok(b'C', [0, 2, 0], "", 6);
    office.ok(b'T', [1, 0, 1], "", 1);
    office.ok(b'C', [0, 2, 0], "", 5);
}

/// Eight locks of equal length, of which the lowest goes and another comes a thousand
/// times. The lowest that stands answers, wherever it is kept.
pub(super) fn the_lower_number_isnt_the_earlier_place(guard: &mut dyn Guard) {
    let mut office = inside(guard);
    for lock in 1..=PRODUCTS {
        office.lock("U0&R0", lock);
    }
    for lowest in 1..1_000 {
        office.reads(0, lowest);
        office.drop_lock(lowest, 1);
        office.lock("S0&D0", lowest + PRODUCTS);
    }
    // Of 1,000 to 1,007 the fifth goes, and a longer one comes, and then equal ones.
    office.reads(0, 1_000);
    office.drop_lock(1_004, 1);
    office.lock("U0&R0&S0", 1_008);
    office.reads(0, 1_008);
    office.drop_lock(1_002, 1);
    office.lock("D0&D1&D2", 1_009);
    office.reads(0, 1_008);
    office.drop_lock(1_000, 1);
    office.lock("D0&D1&!D3", 1_010);
    office.reads(0, 1_008);
    office.drop_lock(1_008, 1);
    office.reads(0, 1_009);
    office.drop_lock(1_009, 1);
    office.reads(0, 1_010);
    office.drop_lock(1_010, 1);
    office.reads(0, 1_001);
}

/// Locks are made and dropped up to the last number, and these stay: the last of one byte
/// and the first of two, those around the half, the last but one, and the last, which has
/// a key more.
pub(super) fn lock_numbers_from_the_first_to_the_last(guard: &mut dyn Guard) {
    let mut office = inside(guard);
    let stay = [255, 256, 32_767, 32_768, LAST_LOCK - 1];
    for lock in 1..LAST_LOCK {
        office.lock("D0&D1", lock);
        if !stay.contains(&lock) {
            office.drop_lock(lock, 1);
        }
    }
    office.reads(0, 255);
    office.lock("D0&D1&D2", LAST_LOCK);
    office.reads(0, LAST_LOCK);
    office.drop_lock(LAST_LOCK, 1);
    for lock in stay {
        office.reads(0, lock);
        office.drop_lock(lock, 1);
    }
    office.no(b'A', [0, 1, 2], "", 15, 0);
}
