//! Key searches worked out by hand from document 02, P3 and P5, and document 01, for
//! the reference guard and for the history.

use reference::guard::{Guard, Refusal};
use reference::history::History;
use reference::journal::Record;
use reference::{Key, Kind};
use testing::calls;

const OWNER: u16 = 0;
const COLLEAGUE: u16 = 1;

const LOADER: u16 = 0;
const RECALCULATION: u16 = 1;
const REPORT: u16 = 2;

/// The owner's threads, and a colleague's.
const FIRST: u16 = 0;
const SECOND: u16 = 1;
const COLLEAGUES: u16 = 2;

/// Numbers of segments and of defined keys around which a search could take one
/// key for another: 64 segments and 1,024 defined keys are ever handed out, in 16
/// bits.
const SEGMENT_EDGES: [u16; 9] = [63, 64, 65, 100, 127, 128, 1_087, 1_088, 65_535];
const DEFINED_EDGES: [u16; 7] = [36, 1_023, 1_024, 65_470, 65_471, 65_472, 65_535];

fn u(number: u16) -> Key {
    let kind = Kind::User;
    Key { kind, number }
}

fn r(number: u16) -> Key {
    let kind = Kind::Thread;
    Key { kind, number }
}

fn s(number: u16) -> Key {
    let kind = Kind::Segment;
    Key { kind, number }
}

fn d(number: u16) -> Key {
    let kind = Kind::Defined;
    Key { kind, number }
}

/// Some keys of every kind, of which some are never handed out.
fn keys_of_every_kind() -> Vec<Key> {
    let edges = SEGMENT_EDGES.map(s).into_iter();
    let edges = edges.chain(DEFINED_EDGES.map(d));
    let low = (0..4).flat_map(|number| [u(number), r(number), s(number), d(number)]);
    edges.chain(low).chain([u(65_535), r(65_535)]).collect()
}

struct Office {
    guard: Guard,
    history: History,
}

impl Office {
    fn empty() -> Office {
        Office {
            guard: Guard::new(),
            history: History::new(),
        }
    }

    /// Users 0 and 1. Threads 0 and 1 are the first one's, thread 2 is the other's.
    /// The first owns so many code segments, which both may call, each by the lock
    /// with its number, and made so many keys. He edits by thread 1.
    fn with(segments: u16, keys: u16) -> Office {
        let mut office = Office::empty();
        office.ok(calls::call(b'U', 0, 0, 0), OWNER);
        office.ok(calls::call(b'U', 0, 0, 0), COLLEAGUE);
        office.ok(calls::call(b'S', OWNER, 0, 0), FIRST);
        office.ok(calls::call(b'S', OWNER, 0, 0), SECOND);
        office.ok(calls::call(b'S', COLLEAGUE, 0, 0), COLLEAGUES);
        for segment in 0..segments {
            office.ok(calls::call(b'N', SECOND, 0, 0), segment);
            office.ok(calls::lock(SECOND, segment, 1, b"U0|U1"), segment);
        }
        for key in 0..keys {
            office.ok(calls::call(b'K', SECOND, 0, 0), key);
        }
        office
    }

    /// Three segments, and D0 to D7.
    fn new() -> Office {
        Office::with(3, 8)
    }

    /// The call must be accepted with this answer.
    #[track_caller]
    fn ok(&mut self, record: Record, answer: u16) {
        let given = calls::told(&mut self.guard, &mut self.history, &record);
        assert_eq!(given, Ok(answer), "{record:?}");
    }

    /// The call must be refused with this number.
    #[track_caller]
    fn no(&mut self, record: Record, number: u32) {
        let given = calls::told(&mut self.guard, &mut self.history, &record);
        assert_eq!(given.map_err(Refusal::number), Err(number), "{record:?}");
    }

    /// A key into a segment's list, which then has so many.
    #[track_caller]
    fn give(&mut self, segment: u16, key: u16, keys: u16) {
        self.ok(calls::call(b'G', SECOND, segment, key), keys);
    }

    /// A key out of a segment's list, which then has so many.
    #[track_caller]
    fn take(&mut self, segment: u16, key: u16, keys: u16) {
        self.ok(calls::call(b'T', SECOND, segment, key), keys);
    }

    #[track_caller]
    fn call(&mut self, thread: u16, segment: u16) {
        self.ok(calls::call(b'C', thread, segment, 0), segment);
    }

    /// The newest open call must be of this segment.
    #[track_caller]
    fn return_from(&mut self, thread: u16, segment: u16) {
        self.ok(calls::call(b'R', thread, 0, 0), segment);
    }

    /// Each of the keys must be found at this place.
    #[track_caller]
    fn finds(&self, thread: u16, place: usize, keys: &[Key]) {
        self.answers(thread, keys, Ok(Some(place)));
    }

    /// No open call hands one of the keys over.
    #[track_caller]
    fn finds_none(&self, thread: u16, keys: &[Key]) {
        self.answers(thread, keys, Ok(None));
    }

    /// The thread isn't live, whichever key is asked for.
    #[track_caller]
    fn refuses(&self, thread: u16) {
        self.answers(thread, &keys_of_every_kind(), Err(2));
    }

    /// The place, or none, or the refusal's number. The history knows but one
    /// refusal.
    #[track_caller]
    fn answers(&self, thread: u16, keys: &[Key], answer: Result<Option<usize>, u32>) {
        let before = self.guard.clone();
        for key in keys {
            let given = self.guard.find_key(thread, *key);
            assert_eq!(given.map_err(Refusal::number), answer, "{thread} {key:?}");
            let told = self.history.find_key(thread, *key);
            assert_eq!(told, answer.ok(), "{thread} {key:?} by the history");
        }
        assert!(self.guard == before, "a search changes the state");
    }
}

#[test]
fn without_an_open_call_nothing_is_found() {
    let mut office = Office::new();
    office.give(LOADER, 0, 2);
    for thread in [FIRST, SECOND, COLLEAGUES] {
        office.finds_none(thread, &keys_of_every_kind());
    }
}

#[test]
fn places_count_from_the_newest_call() {
    let mut office = Office::new();
    office.give(LOADER, 0, 2);
    office.give(LOADER, 1, 3);
    office.give(RECALCULATION, 2, 2);
    office.call(FIRST, LOADER);
    office.finds(FIRST, 0, &[s(0), d(0), d(1)]);
    office.finds_none(FIRST, &[s(1), s(2), d(2), d(3)]);
    office.call(FIRST, RECALCULATION);
    office.finds(FIRST, 0, &[s(1), d(2)]);
    office.finds(FIRST, 1, &[s(0), d(0), d(1)]);
    office.finds_none(FIRST, &[s(2), d(3)]);
    office.call(FIRST, REPORT);
    office.finds(FIRST, 0, &[s(2)]);
    office.finds(FIRST, 1, &[s(1), d(2)]);
    office.finds(FIRST, 2, &[s(0), d(0), d(1)]);
    office.finds_none(FIRST, &[d(3)]);
}

#[test]
fn a_return_moves_the_others_up() {
    let mut office = Office::new();
    office.give(LOADER, 0, 2);
    office.give(RECALCULATION, 2, 2);
    for segment in [LOADER, RECALCULATION, REPORT] {
        office.call(FIRST, segment);
    }
    office.return_from(FIRST, REPORT);
    office.finds(FIRST, 0, &[s(1), d(2)]);
    office.finds(FIRST, 1, &[s(0), d(0)]);
    office.finds_none(FIRST, &[s(2)]);
    office.return_from(FIRST, RECALCULATION);
    office.finds(FIRST, 0, &[s(0), d(0)]);
    office.finds_none(FIRST, &[s(1), d(2), s(2)]);
    office.return_from(FIRST, LOADER);
    office.finds_none(FIRST, &[s(0), d(0), s(1), d(2), s(2)]);
    office.no(calls::call(b'R', FIRST, 0, 0), 9);
    office.finds_none(FIRST, &[s(0), d(0), s(1), d(2), s(2)]);
}

/// D0 is in the loader's list and in the report's.
#[test]
fn a_key_of_two_open_calls_is_found_in_the_newer() {
    let mut office = Office::new();
    office.give(LOADER, 0, 2);
    office.give(REPORT, 0, 2);
    for segment in [LOADER, RECALCULATION, REPORT, RECALCULATION] {
        office.call(FIRST, segment);
    }
    office.finds(FIRST, 0, &[s(1)]);
    office.finds(FIRST, 1, &[s(2), d(0)]);
    office.finds(FIRST, 3, &[s(0)]);
    office.return_from(FIRST, RECALCULATION);
    office.finds(FIRST, 0, &[s(2), d(0)]);
    office.finds(FIRST, 1, &[s(1)]);
    office.finds(FIRST, 2, &[s(0)]);
    office.return_from(FIRST, REPORT);
    office.finds(FIRST, 0, &[s(1)]);
    office.finds(FIRST, 1, &[s(0), d(0)]);
    office.finds_none(FIRST, &[s(2)]);
    office.return_from(FIRST, RECALCULATION);
    office.finds(FIRST, 0, &[s(0), d(0)]);
    office.return_from(FIRST, LOADER);
    office.finds_none(FIRST, &[s(0), d(0)]);
}

#[test]
fn a_segment_called_twice_is_found_where_it_was_called_last() {
    let mut office = Office::new();
    for segment in [LOADER, RECALCULATION, LOADER] {
        office.call(FIRST, segment);
    }
    office.finds(FIRST, 0, &[s(0)]);
    office.finds(FIRST, 1, &[s(1)]);
    office.return_from(FIRST, LOADER);
    office.finds(FIRST, 0, &[s(1)]);
    office.finds(FIRST, 1, &[s(0)]);
    office.return_from(FIRST, RECALCULATION);
    office.finds(FIRST, 0, &[s(0)]);
    office.finds_none(FIRST, &[s(1)]);
}

#[test]
fn a_place_counts_the_calls_without_the_key_too() {
    let mut office = Office::new();
    office.give(LOADER, 0, 2);
    for segment in [LOADER, RECALCULATION, RECALCULATION, REPORT, RECALCULATION] {
        office.call(FIRST, segment);
    }
    office.finds(FIRST, 0, &[s(1)]);
    office.finds(FIRST, 1, &[s(2)]);
    office.finds(FIRST, 4, &[s(0), d(0)]);
}

#[test]
fn a_key_given_meanwhile_comes_with_later_calls_alone() {
    let mut office = Office::new();
    office.call(FIRST, LOADER);
    office.give(LOADER, 0, 2);
    office.finds(FIRST, 0, &[s(0)]);
    office.finds_none(FIRST, &[d(0)]);
    office.call(FIRST, RECALCULATION);
    office.finds(FIRST, 1, &[s(0)]);
    office.finds_none(FIRST, &[d(0)]);
    office.call(FIRST, LOADER);
    office.finds(FIRST, 0, &[s(0), d(0)]);
    office.finds(FIRST, 1, &[s(1)]);
    office.return_from(FIRST, LOADER);
    office.finds(FIRST, 0, &[s(1)]);
    office.finds(FIRST, 1, &[s(0)]);
    office.finds_none(FIRST, &[d(0)]);
}

#[test]
fn a_key_taken_meanwhile_is_gone_from_the_open_call() {
    let mut office = Office::new();
    office.give(LOADER, 0, 2);
    office.call(FIRST, LOADER);
    office.finds(FIRST, 0, &[s(0), d(0)]);
    office.take(LOADER, 0, 1);
    office.finds(FIRST, 0, &[s(0)]);
    office.finds_none(FIRST, &[d(0)]);
    office.call(FIRST, LOADER);
    office.call(FIRST, RECALCULATION);
    office.finds_none(FIRST, &[d(0)]);
    // Given to another segment, it comes with that one's later calls.
    office.give(RECALCULATION, 0, 2);
    office.finds_none(FIRST, &[d(0)]);
    office.call(FIRST, RECALCULATION);
    office.finds(FIRST, 0, &[s(1), d(0)]);
    office.finds(FIRST, 2, &[s(0)]);
    office.return_from(FIRST, RECALCULATION);
    office.finds_none(FIRST, &[d(0)]);
    // Given again, it comes with later calls too.
    office.give(LOADER, 0, 2);
    office.finds(FIRST, 0, &[s(1)]);
    office.finds(FIRST, 1, &[s(0)]);
    office.finds_none(FIRST, &[d(0)]);
    office.call(FIRST, LOADER);
    office.finds(FIRST, 0, &[s(0), d(0)]);
    office.return_from(FIRST, LOADER);
    for left in [RECALCULATION, LOADER, LOADER] {
        office.finds_none(FIRST, &[d(0)]);
        office.return_from(FIRST, left);
    }
    office.finds_none(FIRST, &[s(0), s(1), d(0)]);
}

/// D0 is in the loader's list and in the report's. Of the report it is taken first.
#[test]
fn a_key_taken_from_the_newer_call_is_found_in_the_older() {
    let mut office = Office::new();
    office.give(LOADER, 0, 2);
    office.give(REPORT, 0, 2);
    for segment in [LOADER, RECALCULATION, REPORT, RECALCULATION] {
        office.call(FIRST, segment);
    }
    office.finds(FIRST, 1, &[s(2), d(0)]);
    office.take(REPORT, 0, 1);
    office.finds(FIRST, 1, &[s(2)]);
    office.finds(FIRST, 3, &[s(0), d(0)]);
    office.give(REPORT, 0, 2);
    office.finds(FIRST, 3, &[d(0)]);
    office.take(LOADER, 0, 1);
    office.finds(FIRST, 3, &[s(0)]);
    office.finds_none(FIRST, &[d(0)]);
    // The report has it in its list, and its next call hands it over.
    office.call(FIRST, REPORT);
    office.finds(FIRST, 0, &[s(2), d(0)]);
}

/// The loader is called before the recalculation and after it, and both of its calls
/// lose D0.
#[test]
fn a_key_taken_from_two_calls_is_found_between_them() {
    let mut office = Office::new();
    office.give(LOADER, 0, 2);
    office.give(RECALCULATION, 0, 2);
    for segment in [LOADER, RECALCULATION, LOADER] {
        office.call(FIRST, segment);
    }
    office.finds(FIRST, 0, &[s(0), d(0)]);
    office.take(LOADER, 0, 1);
    office.finds(FIRST, 0, &[s(0)]);
    office.finds(FIRST, 1, &[s(1), d(0)]);
    office.take(RECALCULATION, 0, 1);
    office.finds(FIRST, 1, &[s(1)]);
    office.finds_none(FIRST, &[d(0)]);
}

/// Each thread calls the loader once, and then the report as often as its number.
#[test]
fn a_key_is_taken_from_the_calls_of_every_thread() {
    let mut office = Office::new();
    office.give(LOADER, 0, 2);
    office.give(LOADER, 1, 3);
    for (thread, place) in [(FIRST, 0), (SECOND, 1), (COLLEAGUES, 2)] {
        office.call(thread, LOADER);
        for _ in 0..place {
            office.call(thread, REPORT);
        }
        office.finds(thread, place, &[s(0), d(0), d(1)]);
    }
    // A colleague can't take it, nor can anyone from where it isn't.
    office.no(calls::call(b'T', COLLEAGUES, LOADER, 0), 6);
    office.no(calls::call(b'T', SECOND, REPORT, 0), 9);
    for (thread, place) in [(FIRST, 0), (SECOND, 1), (COLLEAGUES, 2)] {
        office.finds(thread, place, &[d(0)]);
    }
    office.take(LOADER, 0, 2);
    office.give(LOADER, 0, 3);
    for (thread, place) in [(FIRST, 0), (SECOND, 1), (COLLEAGUES, 2)] {
        office.finds(thread, place, &[s(0), d(1)]);
        office.finds_none(thread, &[d(0)]);
    }
}

#[test]
fn a_list_of_eight_keys_is_handed_over_whole() {
    let mut office = Office::new();
    for key in 0..7 {
        office.give(LOADER, key, key + 2);
    }
    office.no(calls::call(b'G', SECOND, LOADER, 7), 10);
    office.call(FIRST, LOADER);
    let eight = [s(0), d(0), d(1), d(2), d(3), d(4), d(5), d(6)];
    office.finds(FIRST, 0, &eight);
    office.finds_none(FIRST, &[d(7)]);
    office.call(FIRST, RECALCULATION);
    office.finds(FIRST, 1, &eight);
    // Another key in the place of D3.
    office.take(LOADER, 3, 7);
    office.give(LOADER, 7, 8);
    let others = [s(0), d(0), d(1), d(2), d(4), d(5), d(6)];
    office.finds(FIRST, 1, &others);
    office.finds_none(FIRST, &[d(3), d(7)]);
    office.call(FIRST, LOADER);
    office.finds(FIRST, 0, &others);
    office.finds(FIRST, 0, &[d(7)]);
    office.finds_none(FIRST, &[d(3)]);
}

/// Segment 3 is a sheet, segment 4 has no lock, and lock 3 denies the report to
/// who came by way of the loader.
#[test]
fn an_access_and_refused_calls_hand_nothing_over() {
    let mut office = Office::new();
    office.ok(calls::call(b'N', SECOND, 1, 0), 3);
    office.ok(calls::call(b'N', SECOND, 0, 0), 4);
    office.ok(calls::lock(SECOND, REPORT, 9, b"S0"), 3);
    office.ok(calls::lock(SECOND, 3, 2, b"U0"), 4);
    office.give(3, 0, 2);
    office.call(FIRST, LOADER);
    office.call(FIRST, RECALCULATION);
    office.ok(calls::call(b'A', FIRST, 3, 2), 4);
    for (segment, number) in [(3, 7), (4, 15), (5, 3), (REPORT, 14)] {
        office.no(calls::call(b'C', FIRST, segment, 0), number);
    }
    office.no(calls::call(b'C', 3, LOADER, 0), 2);
    office.no(calls::call(b'A', FIRST, 3, 4), 15);
    office.finds(FIRST, 0, &[s(1)]);
    office.finds(FIRST, 1, &[s(0)]);
    office.finds_none(FIRST, &[s(2), s(3), s(4), s(5), d(0)]);
}

/// Each thread has open calls, and keys with the same numbers are handed over.
#[test]
fn identity_keys_are_held_and_not_found() {
    let mut office = Office::new();
    office.give(LOADER, 0, 2);
    office.give(RECALCULATION, 1, 2);
    office.give(REPORT, 2, 2);
    let identity = [0, 1, 2, 3, 65_535].map(|number| [u(number), r(number)]);
    for thread in [FIRST, SECOND, COLLEAGUES] {
        for segment in [LOADER, RECALCULATION, REPORT] {
            office.call(thread, segment);
        }
        office.finds_none(thread, identity.as_flattened());
        for (place, number) in [(0, 2), (1, 1), (2, 0)] {
            office.finds(thread, place, &[s(number), d(number)]);
        }
    }
    for (thread, user) in [(FIRST, 0), (SECOND, 0), (COLLEAGUES, 1)] {
        let held = office.history.key_set(thread).expect("it is live");
        assert!(held.contains(&u(user)) && held.contains(&r(thread)));
    }
}

#[test]
fn two_threads_of_a_user_have_calls_of_their_own() {
    let mut office = Office::new();
    office.give(LOADER, 0, 2);
    for segment in [LOADER, RECALCULATION] {
        office.call(FIRST, segment);
    }
    for segment in [RECALCULATION, LOADER, REPORT] {
        office.call(SECOND, segment);
    }
    office.call(COLLEAGUES, REPORT);
    office.finds(FIRST, 0, &[s(1)]);
    office.finds(FIRST, 1, &[s(0), d(0)]);
    office.finds_none(FIRST, &[s(2)]);
    office.finds(SECOND, 0, &[s(2)]);
    office.finds(SECOND, 1, &[s(0), d(0)]);
    office.finds(SECOND, 2, &[s(1)]);
    office.finds(COLLEAGUES, 0, &[s(2)]);
    office.finds_none(COLLEAGUES, &[s(0), d(0), s(1)]);
    office.return_from(FIRST, RECALCULATION);
    office.finds(FIRST, 0, &[s(0), d(0)]);
    office.finds_none(FIRST, &[s(1), s(2)]);
    office.finds(SECOND, 2, &[s(1)]);
    office.ok(calls::call(b'E', SECOND, 0, 0), 3);
    office.refuses(SECOND);
    office.finds(FIRST, 0, &[s(0), d(0)]);
    office.finds(COLLEAGUES, 0, &[s(2)]);
}

#[test]
fn an_ended_thread_is_no_thread() {
    let mut office = Office::new();
    office.give(LOADER, 0, 2);
    office.call(FIRST, LOADER);
    office.call(SECOND, LOADER);
    office.ok(calls::call(b'E', FIRST, 0, 0), 1);
    office.refuses(FIRST);
    office.finds(SECOND, 0, &[s(0), d(0)]);
    // Nor does a new one take over its open call.
    let new = 3;
    office.ok(calls::call(b'S', OWNER, 0, 0), new);
    office.finds_none(new, &keys_of_every_kind());
    office.call(new, LOADER);
    office.finds(new, 0, &[s(0), d(0)]);
    office.refuses(FIRST);
}

#[test]
fn a_thread_never_started_is_no_thread() {
    let office = Office::empty();
    for thread in [FIRST, SECOND, 65_535] {
        office.refuses(thread);
    }
    let mut office = Office::new();
    for thread in [FIRST, SECOND, COLLEAGUES] {
        office.call(thread, LOADER);
    }
    for thread in [3, 4, 63, 64, 65, 66, 128, 256, 65_535] {
        office.refuses(thread);
    }
    // A refused S starts none.
    office.no(calls::call(b'S', 2, 0, 0), 1);
    office.refuses(3);
}

/// Threads 3 to 63 are the last that can be live together with 0 to 2. Each calls
/// the segment of its parity.
#[test]
fn as_many_threads_as_are_live_at_a_time() {
    let mut office = Office::new();
    for thread in 3..64 {
        office.ok(calls::call(b'S', OWNER, 0, 0), thread);
    }
    office.no(calls::call(b'S', OWNER, 0, 0), 10);
    for thread in 0..64 {
        office.call(thread, thread % 2);
    }
    for thread in 0..64 {
        office.finds(thread, 0, &[s(thread % 2)]);
        office.finds_none(thread, &[s((thread + 1) % 2)]);
    }
    office.refuses(64);
    office.ok(calls::call(b'E', 5, 0, 0), 1);
    office.ok(calls::call(b'S', OWNER, 0, 0), 64);
    office.refuses(5);
    office.finds_none(64, &[s(0), s(1)]);
    office.call(64, REPORT);
    office.finds(64, 0, &[s(2)]);
    office.finds_none(64, &[s(0), s(1)]);
    office.finds(0, 0, &[s(0)]);
    office.refuses(5);
}

/// There is no 4: whether a key was handed out isn't asked.
#[test]
fn a_key_never_handed_out_is_none() {
    let mut office = Office::new();
    office.give(LOADER, 0, 2);
    office.give(LOADER, 1, 3);
    office.call(FIRST, LOADER);
    office.finds(FIRST, 0, &[s(0), d(0), d(1)]);
    office.finds_none(FIRST, &SEGMENT_EDGES.map(s));
    office.finds_none(FIRST, &DEFINED_EDGES.map(d));
    office.finds_none(FIRST, &[s(3), d(8), u(2), r(3), u(65_535), r(65_535)]);
}

/// Segments 0 to 63 and D0 to D1023: the last numbers are found, and nothing is
/// taken for another key, were the numbers of segments and of defined keys to
/// follow each other, or 16 bits to run over.
#[test]
fn the_last_numbers_and_those_beyond() {
    let mut office = Office::with(64, 1_024);
    office.no(calls::call(b'N', SECOND, 0, 0), 10);
    office.no(calls::call(b'K', SECOND, 0, 0), 10);
    for (key, keys) in [0, 1, 36, 63, 64, 1_023].into_iter().zip(2..) {
        office.give(63, key, keys);
    }
    let handed_over = [s(63), d(0), d(1), d(36), d(63), d(64), d(1_023)];
    office.call(FIRST, 63);
    office.finds(FIRST, 0, &handed_over);
    office.finds_none(FIRST, &[s(0), s(1), s(36), s(62)]);
    office.call(FIRST, 0);
    office.finds(FIRST, 0, &[s(0)]);
    office.finds(FIRST, 1, &handed_over);
    office.finds_none(FIRST, &[64, 65, 100, 127, 128, 1_087, 1_088, 65_535].map(s));
    office.finds_none(FIRST, &[1_024, 65_470, 65_471, 65_472, 65_535].map(d));
    office.finds_none(FIRST, &[2, 35, 37, 62, 65, 127, 1_022].map(d));
    office.finds_none(FIRST, &[1, 36, 62].map(s));
    // Without them among the keys, they are none themselves.
    office.call(SECOND, 0);
    office.finds_none(SECOND, &handed_over);
    office.finds_none(SECOND, &DEFINED_EDGES.map(d));
    office.finds_none(SECOND, &SEGMENT_EDGES.map(s));
}

/// Segment n hands over Sn and Dn.
#[test]
fn sixteen_open_calls_have_places_0_to_15() {
    let mut office = Office::with(16, 16);
    for number in 0..16 {
        office.give(number, number, 2);
        office.call(FIRST, number);
    }
    for (number, place) in (0..16).zip((0..16).rev()) {
        office.finds(FIRST, place, &[s(number), d(number)]);
    }
    office.no(calls::call(b'C', FIRST, 0, 0), 10);
    office.finds(FIRST, 15, &[s(0), d(0)]);
    office.finds(FIRST, 0, &[s(15), d(15)]);
    for left in (0..16).rev() {
        office.return_from(FIRST, left);
        office.finds_none(FIRST, &[s(left), d(left)]);
        for (number, place) in (0..left).zip((0..usize::from(left)).rev()) {
            office.finds(FIRST, place, &[s(number), d(number)]);
        }
    }
}

/// The first eight are made before D0 is given.
#[test]
fn sixteen_open_calls_of_one_segment() {
    let mut office = Office::new();
    for _ in 0..8 {
        office.call(FIRST, LOADER);
        office.finds(FIRST, 0, &[s(0)]);
    }
    office.give(LOADER, 0, 2);
    office.finds_none(FIRST, &[d(0)]);
    for _ in 0..8 {
        office.call(FIRST, LOADER);
        office.finds(FIRST, 0, &[s(0), d(0)]);
    }
    for _ in 0..8 {
        office.finds(FIRST, 0, &[s(0), d(0)]);
        office.return_from(FIRST, LOADER);
    }
    for _ in 0..8 {
        office.finds(FIRST, 0, &[s(0)]);
        office.finds_none(FIRST, &[d(0)]);
        office.return_from(FIRST, LOADER);
    }
    office.finds_none(FIRST, &[s(0), d(0)]);
}

#[test]
fn sixteen_open_calls_of_one_segment_lose_a_key() {
    let mut office = Office::new();
    office.give(LOADER, 0, 2);
    office.give(LOADER, 1, 3);
    for _ in 0..16 {
        office.call(FIRST, LOADER);
    }
    office.finds(FIRST, 0, &[s(0), d(0), d(1)]);
    office.take(LOADER, 0, 2);
    for _ in 0..16 {
        office.finds(FIRST, 0, &[s(0), d(1)]);
        office.finds_none(FIRST, &[d(0)]);
        office.return_from(FIRST, LOADER);
    }
    office.finds_none(FIRST, &[s(0), d(0), d(1)]);
}
