//! Worked examples for tests, each with the answers that document 01 gives with
//! document 02's P4 to P6: its own (document 01: trial desks), the installer's
//! checklist, the table of refusals, who edits, what a key that is taken is gone
//! from, which of several locks answers, and the limits from both sides. What is
//! expected is written out by hand from the documents, and every guard must give it.

mod editors;
mod limits;
mod tightest;
mod withdrawal;

use reference::guard::Answer;
use reference::letter::Letter;
use reference::limits::MAX_TEXT_BYTES;

/// A guard that examples are tried on, with the empty state at first.
pub trait Guard {
    /// One call. A guard that can tell that a refusal changed something panics.
    fn call(&mut self, letter: u8, fields: [u16; 3], text: &[u8]) -> Answer;
}

/// An example, with its name.
pub type Trial = (&'static str, fn(&mut dyn Guard));

/// All of them, each to be tried on a new guard.
pub const TRIALS: [Trial; 55] = [
    ("the route over two segments", the_route_over_two_segments),
    (
        "an empty state has no user and no thread",
        an_empty_state_has_no_user_and_no_thread,
    ),
    (
        "a user without a thread edits nothing",
        editors::a_user_without_a_thread_edits_nothing,
    ),
    (
        "a thread that isnt live is refused before all else",
        editors::a_thread_that_isnt_live_is_refused_before_all_else,
    ),
    (
        "any thread of the user edits and no other",
        editors::any_thread_of_the_user_edits_and_no_other,
    ),
    (
        "an owner stays when the thread ends",
        editors::an_owner_stays_when_the_thread_ends,
    ),
    (
        "a thread at a freed place edits for its own user",
        editors::a_thread_at_a_freed_place_edits_for_its_own_user,
    ),
    ("texts of the worked examples", texts_of_the_worked_examples),
    (
        "keys are kept on the way down and missed off the route",
        keys_are_kept_on_the_way_down_and_missed_off_the_route,
    ),
    ("a return gives the keys back", a_return_gives_the_keys_back),
    (
        "a key handed over twice is held until both return",
        a_key_handed_over_twice_is_held_until_both_return,
    ),
    ("a dropped lock opens no more", a_dropped_lock_opens_no_more),
    (
        "the sixteenth call is the last",
        limits::the_sixteenth_call_is_the_last,
    ),
    (
        "deny beats grant and the lowest number is given",
        deny_beats_grant_and_the_lowest_number_is_given,
    ),
    (
        "an open call hands over the list that it found",
        an_open_call_hands_over_the_list_that_it_found,
    ),
    (
        "a taken key is gone from the open call",
        withdrawal::a_taken_key_is_gone_from_the_open_call,
    ),
    (
        "a key given after the call is not with it",
        withdrawal::a_key_given_after_the_call_is_not_with_it,
    ),
    (
        "another segments open call still hands it over",
        withdrawal::another_segments_open_call_still_hands_it_over,
    ),
    (
        "every open call of the segment loses it",
        withdrawal::every_open_call_of_the_segment_loses_it,
    ),
    (
        "open calls of every thread lose it",
        withdrawal::open_calls_of_every_thread_lose_it,
    ),
    (
        "sixteen open calls of sixty four threads lose it",
        withdrawal::sixteen_open_calls_of_sixty_four_threads_lose_it,
    ),
    (
        "one of sixteen open calls loses it",
        withdrawal::one_of_sixteen_open_calls_loses_it,
    ),
    (
        "locks that bar it and locks that deny",
        withdrawal::locks_that_bar_it_and_locks_that_deny,
    ),
    (
        "a refused take withdraws nothing",
        withdrawal::a_refused_take_withdraws_nothing,
    ),
    (
        "the segments own key stays",
        withdrawal::the_segments_own_key_stays,
    ),
    (
        "the other keys of the list stay",
        withdrawal::the_other_keys_of_the_list_stay,
    ),
    (
        "any thread of the owner takes it",
        withdrawal::any_thread_of_the_owner_takes_it,
    ),
    (
        "a thread at a freed place has calls of its own",
        withdrawal::a_thread_at_a_freed_place_has_calls_of_its_own,
    ),
    (
        "a longer lock answers though it is later",
        tightest::a_longer_lock_answers_though_it_is_later,
    ),
    (
        "every length beside every other",
        tightest::every_length_beside_every_other,
    ),
    (
        "equal ones go to the lower number",
        tightest::equal_ones_go_to_the_lower_number,
    ),
    (
        "a product that doesnt open counts for nothing",
        tightest::a_product_that_doesnt_open_counts_for_nothing,
    ),
    (
        "the longest product neednt be the first",
        tightest::the_longest_product_neednt_be_the_first,
    ),
    (
        "the tightest at every place",
        tightest::the_tightest_at_every_place,
    ),
    (
        "barred keys count as plain ones",
        tightest::barred_keys_count_as_plain_ones,
    ),
    (
        "nothing else is simplified",
        tightest::nothing_else_is_simplified,
    ),
    (
        "a dropped lock gives the next back",
        tightest::a_dropped_lock_gives_the_next_back,
    ),
    (
        "deny locks keep their order",
        tightest::deny_locks_keep_their_order,
    ),
    (
        "a deny lock after several grant locks",
        tightest::a_deny_lock_after_several_grant_locks,
    ),
    (
        "a longer lock of another operation doesnt answer",
        tightest::a_longer_lock_of_another_operation_doesnt_answer,
    ),
    (
        "calls are answered by the tightest too",
        tightest::calls_are_answered_by_the_tightest_too,
    ),
    (
        "sixteen open calls are full however many locks open",
        tightest::sixteen_open_calls_are_full_however_many_locks_open,
    ),
    (
        "a taken key makes another lock answer",
        tightest::a_taken_key_makes_another_lock_answer,
    ),
    (
        "the lower number isnt the earlier place",
        tightest::the_lower_number_isnt_the_earlier_place,
    ),
    (
        "lock numbers from the first to the last",
        tightest::lock_numbers_from_the_first_to_the_last,
    ),
    (
        "identity keys are a threads own",
        identity_keys_are_a_threads_own,
    ),
    (
        "the first condition in the tables order refuses",
        the_first_condition_in_the_tables_order_refuses,
    ),
    (
        "a call of no known shape comes before all else",
        a_call_of_no_known_shape_comes_before_all_else,
    ),
    (
        "users segments and keys to their limits",
        limits::users_segments_and_keys_to_their_limits,
    ),
    (
        "a list of keys to its limit",
        limits::a_list_of_keys_to_its_limit,
    ),
    (
        "the products of a segment to their limit",
        limits::the_products_of_a_segment_to_their_limit,
    ),
    (
        "live threads to their limit",
        limits::live_threads_to_their_limit,
    ),
    (
        "freed places are used again",
        limits::freed_places_are_used_again,
    ),
    ("thread numbers run out", limits::thread_numbers_run_out),
    ("lock numbers run out", limits::lock_numbers_run_out),
];

struct Office<'a> {
    guard: &'a mut dyn Guard,
}

impl Office<'_> {
    fn new(guard: &mut dyn Guard) -> Office<'_> {
        Office { guard }
    }

    /// One user, 0, with threads 0 and 1; two code segments, 0 and 1, and a sheet,
    /// 2, all his. He may call both, by locks 0 and 1, and write to the sheet with
    /// S0 and S1, by lock 2.
    fn with_totals(guard: &mut dyn Guard) -> Office<'_> {
        let mut office = Office::new(guard);
        office.ok(b'U', [0, 0, 0], "", 0);
        office.ok(b'S', [0, 0, 0], "", 0);
        office.ok(b'S', [0, 0, 0], "", 1);
        office.ok(b'N', [0, 0, 0], "", 0);
        office.ok(b'N', [0, 0, 0], "", 1);
        office.ok(b'N', [0, 1, 0], "", 2);
        office.ok(b'L', [0, 0, 1], "U0", 0);
        office.ok(b'L', [0, 1, 1], "U0", 1);
        office.ok(b'L', [0, 2, 4], "S0&S1", 2);
        office
    }

    /// The call must be accepted with this answer.
    #[track_caller]
    fn ok(&mut self, letter: u8, fields: [u16; 3], text: &str, answer: u16) {
        let given = self.guard.call(letter, fields, text.as_bytes());
        assert_eq!(given, Ok(answer), "{} {fields:?} {text}", letter as char);
    }

    /// The call must be refused with these two numbers.
    #[track_caller]
    fn no(&mut self, letter: u8, fields: [u16; 3], text: &str, number: u32, second: u16) {
        let given = self.guard.call(letter, fields, text.as_bytes());
        let refused = given.map_err(|refusal| (refusal.number(), refusal.second()));
        let expected = Err((number, second));
        assert_eq!(refused, expected, "{} {fields:?} {text}", letter as char);
    }
}

fn the_route_over_two_segments(guard: &mut dyn Guard) {
    let mut office = Office::with_totals(guard);
    office.ok(b'C', [0, 0, 0], "", 0);
    office.ok(b'C', [0, 1, 0], "", 1);
    office.ok(b'C', [1, 1, 0], "", 1);
    office.ok(b'A', [0, 2, 4], "", 2);
    office.no(b'A', [1, 2, 4], "", 15, 0);
    office.ok(b'R', [0, 0, 0], "", 1);
    office.no(b'A', [0, 2, 4], "", 15, 0);
}

fn an_empty_state_has_no_user_and_no_thread(guard: &mut dyn Guard) {
    let mut office = Office::new(guard);
    office.no(b'S', [0, 0, 0], "", 1, 0);
    office.no(b'R', [0, 0, 0], "", 2, 0);
    office.no(b'N', [0, 0, 0], "", 2, 0);
    office.no(b'K', [0, 0, 0], "", 2, 0);
    office.no(b'G', [0, 0, 0], "", 2, 0);
    office.no(b'T', [0, 0, 0], "", 2, 0);
    office.no(b'L', [0, 0, 1], "U0", 2, 0);
    office.no(b'D', [0, 0, 0], "", 2, 0);
}

/// The answer of a D is how many products the lock had.
fn texts_of_the_worked_examples(guard: &mut dyn Guard) {
    let mut office = Office::with_totals(guard);
    for key in 0..9 {
        office.ok(b'K', [0, 0, 0], "", key);
    }
    // Sheet 3, without locks.
    office.ok(b'N', [0, 1, 0], "", 3);
    office.no(b'L', [0, 3, 2], "D0&!D0", 13, 0);
    office.no(b'L', [0, 3, 2], "D01", 11, 0);
    office.no(b'L', [0, 3, 2], "D0|D1|D2|D3|D4|D5|D6|D7|D8", 12, 0);
    office.no(b'L', [0, 3, 2], "D0&D1&D2&D3&D4&D5&D6", 12, 0);
    for (lock, text, products) in [
        (3, "(D0&!D0)|D1", 1),
        (4, "D0|D0&D1", 2),
        (5, "!(D0|D1)", 1),
        (6, "(D0|D1)&(D2|D3)", 4),
        (7, "D0|D1|D2|D3|D4|D5|D6|D7", 8),
        (8, "D0&D1&D2&D3&D4&D5", 1),
    ] {
        office.ok(b'L', [0, 3, 2], text, lock);
        office.ok(b'D', [0, lock, 0], "", products);
    }
}

/// Checklist 1 and 2: a save by way of both parts, and one off the route.
fn keys_are_kept_on_the_way_down_and_missed_off_the_route(guard: &mut dyn Guard) {
    let mut office = Office::with_totals(guard);
    office.no(b'A', [0, 2, 4], "", 15, 0);
    office.ok(b'C', [0, 0, 0], "", 0);
    office.no(b'A', [0, 2, 4], "", 15, 0);
    office.ok(b'C', [0, 1, 0], "", 1);
    office.ok(b'A', [0, 2, 4], "", 2);
    // An access changes nothing, so the next one is granted too.
    office.ok(b'A', [0, 2, 4], "", 2);
    office.ok(b'C', [1, 1, 0], "", 1);
    office.no(b'A', [1, 2, 4], "", 15, 0);
    // S0&S1 fixes no order.
    office.ok(b'C', [1, 0, 0], "", 0);
    office.ok(b'A', [1, 2, 4], "", 2);
}

/// Checklist 3: no key is left behind by a return.
fn a_return_gives_the_keys_back(guard: &mut dyn Guard) {
    let mut office = Office::with_totals(guard);
    office.ok(b'C', [0, 0, 0], "", 0);
    office.ok(b'C', [0, 1, 0], "", 1);
    office.ok(b'A', [0, 2, 4], "", 2);
    office.ok(b'R', [0, 0, 0], "", 1);
    office.no(b'A', [0, 2, 4], "", 15, 0);
    office.ok(b'C', [0, 1, 0], "", 1);
    office.ok(b'A', [0, 2, 4], "", 2);
    office.ok(b'R', [0, 0, 0], "", 1);
    office.ok(b'R', [0, 0, 0], "", 0);
    office.no(b'R', [0, 0, 0], "", 9, 0);
    office.no(b'A', [0, 2, 4], "", 15, 0);
}

/// Checklist 4: a segment called twice and left once still gives its key.
fn a_key_handed_over_twice_is_held_until_both_return(guard: &mut dyn Guard) {
    let mut office = Office::with_totals(guard);
    for (segment, lock) in [(0, 0), (1, 1), (0, 0)] {
        office.ok(b'C', [0, segment, 0], "", lock);
    }
    office.ok(b'R', [0, 0, 0], "", 0);
    office.ok(b'A', [0, 2, 4], "", 2);
    office.ok(b'C', [0, 1, 0], "", 1);
    office.ok(b'R', [0, 0, 0], "", 1);
    office.ok(b'A', [0, 2, 4], "", 2);
    office.ok(b'R', [0, 0, 0], "", 1);
    office.no(b'A', [0, 2, 4], "", 15, 0);
}

/// Checklist 5: nothing is granted on a lock that is gone, whichever of the
/// owner's threads drops it.
fn a_dropped_lock_opens_no_more(guard: &mut dyn Guard) {
    let mut office = Office::with_totals(guard);
    office.ok(b'C', [0, 0, 0], "", 0);
    office.ok(b'C', [0, 1, 0], "", 1);
    office.ok(b'A', [0, 2, 4], "", 2);
    office.ok(b'D', [1, 2, 0], "", 1);
    office.no(b'A', [0, 2, 4], "", 15, 0);
    office.no(b'D', [0, 2, 0], "", 5, 0);
    // Its number is not handed out again.
    office.ok(b'L', [1, 2, 4], "S0&S1", 3);
    office.ok(b'A', [0, 2, 4], "", 3);
    // A call that is open stays open without the lock that let it in.
    office.ok(b'D', [0, 0, 0], "", 1);
    office.no(b'C', [0, 0, 0], "", 15, 0);
    office.ok(b'A', [0, 2, 4], "", 3);
}

fn deny_beats_grant_and_the_lowest_number_is_given(guard: &mut dyn Guard) {
    let mut office = Office::with_totals(guard);
    office.ok(b'L', [0, 2, 6], "R0", 3);
    office.ok(b'L', [0, 2, 4], "U0", 4);
    office.ok(b'A', [0, 2, 4], "", 3);
    office.ok(b'A', [0, 2, 2], "", 3);
    office.ok(b'L', [0, 2, 12], "!S0", 5);
    office.ok(b'L', [0, 2, 14], "U0", 6);
    office.ok(b'L', [0, 2, 4], "U0", 7);
    office.no(b'A', [0, 2, 4], "", 14, 5);
    office.no(b'A', [0, 2, 2], "", 14, 6);
    office.ok(b'D', [0, 6, 0], "", 1);
    office.no(b'A', [0, 2, 4], "", 14, 5);
    office.ok(b'A', [0, 2, 2], "", 3);
    // With S0 held, the barred key fails. The grant locks that open have one key each,
    // so the lowest answers.
    office.ok(b'C', [0, 0, 0], "", 0);
    office.ok(b'A', [0, 2, 4], "", 3);
    office.ok(b'D', [0, 3, 0], "", 1);
    office.ok(b'A', [0, 2, 4], "", 4);
    office.no(b'A', [0, 2, 2], "", 15, 0);
}

/// Thread 1 edits while thread 0 has a call open. What is given meanwhile comes with
/// later calls, and what is taken is gone at once.
fn an_open_call_hands_over_the_list_that_it_found(guard: &mut dyn Guard) {
    let mut office = Office::with_totals(guard);
    office.ok(b'K', [0, 0, 0], "", 0);
    office.ok(b'K', [0, 0, 0], "", 1);
    office.ok(b'G', [0, 0, 0], "", 2);
    office.ok(b'L', [0, 2, 2], "D0", 3);
    office.ok(b'L', [0, 2, 2], "D1", 4);
    office.no(b'A', [0, 2, 2], "", 15, 0);
    office.ok(b'C', [0, 0, 0], "", 0);
    office.ok(b'A', [0, 2, 2], "", 3);
    office.ok(b'G', [1, 0, 1], "", 3);
    office.ok(b'A', [0, 2, 2], "", 3);
    office.ok(b'T', [1, 0, 0], "", 2);
    office.no(b'A', [0, 2, 2], "", 15, 0);
    office.ok(b'C', [0, 0, 0], "", 0);
    office.ok(b'A', [0, 2, 2], "", 4);
    office.ok(b'R', [0, 0, 0], "", 0);
    office.no(b'A', [0, 2, 2], "", 15, 0);
}

/// Thread 2 is another user's.
fn identity_keys_are_a_threads_own(guard: &mut dyn Guard) {
    let mut office = Office::with_totals(guard);
    office.ok(b'U', [0, 0, 0], "", 1);
    office.ok(b'S', [1, 0, 0], "", 2);
    office.ok(b'L', [0, 2, 2], "U1|R0", 3);
    office.ok(b'A', [0, 2, 2], "", 3);
    office.no(b'A', [1, 2, 2], "", 15, 0);
    office.ok(b'A', [2, 2, 2], "", 3);
    office.ok(b'E', [0, 0, 0], "", 0);
    office.ok(b'S', [0, 0, 0], "", 3);
    office.no(b'A', [3, 2, 2], "", 15, 0);
    // An ended thread's key may still be named, and nobody holds it.
    office.ok(b'L', [1, 2, 4], "!R0", 4);
    office.ok(b'A', [3, 2, 4], "", 4);
    office.no(b'A', [0, 2, 4], "", 2, 0);
    office.no(b'L', [1, 2, 4], "R4", 11, 0);
}

/// Each condition with the ones after it in the table true as well, where they
/// can be. Threads 0 and 1 are user 0's, thread 2 is user 1's, and thread 3 is
/// none.
fn the_first_condition_in_the_tables_order_refuses(guard: &mut dyn Guard) {
    let mut office = Office::with_totals(guard);
    office.ok(b'U', [0, 0, 0], "", 1);
    office.ok(b'S', [1, 0, 0], "", 2);
    office.ok(b'K', [1, 0, 0], "", 0);
    office.ok(b'K', [2, 0, 0], "", 1);
    office.no(b'S', [2, 0, 0], "", 1, 0);
    office.no(b'E', [3, 0, 0], "", 2, 0);
    office.no(b'N', [3, 2, 0], "", 2, 0);
    office.no(b'N', [0, 2, 0], "", 7, 0);
    office.no(b'K', [3, 0, 0], "", 2, 0);

    office.no(b'G', [3, 3, 2], "", 2, 0);
    office.no(b'G', [2, 3, 2], "", 3, 0);
    office.no(b'G', [2, 0, 2], "", 4, 0);
    office.no(b'G', [2, 0, 1], "", 6, 0);
    office.no(b'G', [1, 0, 1], "", 6, 0);
    office.ok(b'G', [1, 0, 0], "", 2);
    office.no(b'G', [1, 0, 0], "", 8, 0);
    office.no(b'T', [3, 3, 2], "", 2, 0);
    office.no(b'T', [2, 3, 2], "", 3, 0);
    office.no(b'T', [2, 0, 2], "", 4, 0);
    office.no(b'T', [2, 0, 1], "", 6, 0);
    // The key is another's, which matters to G alone.
    office.no(b'T', [1, 0, 1], "", 9, 0);

    office.no(b'L', [3, 3, 0], "", 2, 0);
    office.no(b'L', [2, 3, 0], "", 3, 0);
    office.no(b'L', [2, 0, 0], "", 6, 0);
    for operations in [0, 2, 3, 4, 5, 8, 10, 16, 17, 32_769] {
        office.no(b'L', [1, 0, operations], "", 7, 0);
    }
    for operations in [0, 1, 3, 5, 7, 8, 9, 15, 16, 18, 32_770] {
        office.no(b'L', [1, 2, operations], "", 7, 0);
    }
    office.no(b'L', [0, 0, 1], "", 11, 0);
    office.no(b'L', [0, 0, 1], "U0&S9", 11, 0);
    office.no(b'L', [0, 0, 1], &"!".repeat(MAX_TEXT_BYTES + 1), 11, 0);
    office.ok(b'L', [0, 0, 1], &("!".repeat(MAX_TEXT_BYTES - 2) + "U0"), 3);
    office.no(b'L', [0, 0, 1], &("!".repeat(MAX_TEXT_BYTES) + "U0"), 11, 0);

    office.no(b'D', [3, 9, 0], "", 2, 0);
    office.no(b'D', [2, 9, 0], "", 5, 0);
    office.no(b'D', [2, 0, 0], "", 6, 0);

    office.no(b'C', [3, 3, 0], "", 2, 0);
    office.no(b'C', [0, 3, 0], "", 3, 0);
    office.no(b'C', [0, 2, 0], "", 7, 0);
    office.no(b'A', [3, 3, 0], "", 2, 0);
    office.no(b'A', [0, 3, 0], "", 3, 0);
    for operation in [0, 1, 3, 5, 6, 8, 10, 12, 258] {
        office.no(b'A', [0, 2, operation], "", 7, 0);
    }
    office.no(b'A', [0, 0, 2], "", 7, 0);
    office.no(b'A', [0, 0, 1], "", 7, 0);
    office.no(b'R', [3, 0, 0], "", 2, 0);
    office.no(b'R', [0, 0, 0], "", 9, 0);
}

fn a_call_of_no_known_shape_comes_before_all_else(guard: &mut dyn Guard) {
    let mut office = Office::new(guard);
    for letter in (0..=255).filter(|letter| Letter::of(*letter).is_none()) {
        office.no(letter, [0, 0, 0], "", 18, 0);
    }
    for letter in Letter::ALL {
        let unnamed = letter.fields().len()..3;
        for wrong in unnamed.clone() {
            let mut fields = [9; 3];
            fields[unnamed.clone()].fill(0);
            fields[wrong] = 1;
            office.no(letter.byte(), fields, "", 18, 0);
        }
        if !letter.has_text() {
            office.no(letter.byte(), [0, 0, 0], "U0", 18, 0);
        }
    }
    // All of L's fields are named, and it has a text.
    office.no(b'L', [9, 9, 9], "", 2, 0);
    office.ok(b'U', [0, 0, 0], "", 0);
}
