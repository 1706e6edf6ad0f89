//! The key search: worked examples by hand from document 02, P3 and P5.

use rotundaaloe::formula::Key;
use rotundaaloe::limits::MOST_OPEN_CALLS;
use rotundaaloe::{
    Defined, Guard, Kind, Operations, Refusal, Segment, Thread, User, refusal::FindKey,
};

const OWNER: User = User(0);

const LOADER: Segment = Segment(0);
const RECALCULATION: Segment = Segment(1);
const AUDIT: Segment = Segment(2);
const SHEET: Segment = Segment(3);

const BUSY: Thread = Thread(0);
const IDLE: Thread = Thread(1);
/// Not started.
const NOBODY: Thread = Thread(2);

fn s(segment: Segment) -> Key {
    Key::Segment(segment)
}

fn d(number: u16) -> Key {
    Key::Defined(Defined(number))
}

/// Three parts that anybody may call, and a sheet. The loader hands over D0 too,
/// the recalculation D0 and D1; the sheet's list has D2. Two threads are live.
fn office() -> Guard {
    let mut guard = Guard::new();
    assert_eq!(guard.new_user(), Ok(OWNER));
    for thread in [BUSY, IDLE] {
        assert_eq!(guard.start_thread(OWNER), Ok(thread));
    }
    for segment in [LOADER, RECALCULATION, AUDIT] {
        assert_eq!(guard.new_segment(BUSY, Kind::Code), Ok(segment));
        let lock = guard.add_lock(BUSY, segment, Operations::EXECUTE, "U0");
        lock.expect("a lock");
    }
    assert_eq!(guard.new_segment(BUSY, Kind::Sheet), Ok(SHEET));
    for key in 0..3 {
        assert_eq!(guard.new_key(BUSY), Ok(Defined(key)));
    }
    for (segment, key) in [
        (LOADER, 0),
        (RECALCULATION, 0),
        (RECALCULATION, 1),
        (SHEET, 2),
    ] {
        give(&mut guard, segment, key);
    }
    guard
}

fn give(guard: &mut Guard, segment: Segment, key: u16) {
    let given = guard.give_key(BUSY, segment, Defined(key));
    given.expect("a key of the owner's");
}

fn call(guard: &mut Guard, segments: &[Segment]) {
    for segment in segments {
        guard.call_segment(BUSY, *segment).expect("a lock opens");
    }
}

/// The places of the keys among the busy thread's open calls.
#[track_caller]
fn found(guard: &Guard, places: &[(Key, Option<usize>)]) {
    for (key, place) in places {
        assert_eq!(guard.find_key(BUSY, *key), Ok(*place), "{key}");
    }
}

/// A key that two calls hand over is the newer one's.
#[test]
fn the_newest_of_several() {
    let mut guard = office();
    call(&mut guard, &[LOADER, RECALCULATION]);
    found(
        &guard,
        &[(d(0), Some(0)), (d(1), Some(0)), (s(LOADER), Some(1))],
    );
    guard = office();
    call(&mut guard, &[RECALCULATION, LOADER]);
    found(
        &guard,
        &[(d(0), Some(0)), (d(1), Some(1)), (s(LOADER), Some(0))],
    );
    // One segment twice.
    guard = office();
    call(&mut guard, &[LOADER, AUDIT, LOADER]);
    found(
        &guard,
        &[(s(LOADER), Some(0)), (d(0), Some(0)), (s(AUDIT), Some(1))],
    );
}

/// A return takes the newest away, and every other call moves up.
#[test]
fn place_counts_all_open_calls() {
    let mut guard = office();
    let keys = [s(LOADER), s(RECALCULATION), s(AUDIT), d(0), d(1)];
    let all = |guard: &Guard, places: [Option<usize>; 5]| {
        let places: Vec<_> = keys.into_iter().zip(places).collect();
        found(guard, &places);
    };
    all(&guard, [None; 5]);
    call(&mut guard, &[LOADER, RECALCULATION, AUDIT, LOADER]);
    all(&guard, [Some(0), Some(2), Some(1), Some(0), Some(2)]);
    assert_eq!(guard.return_call(BUSY), Ok(LOADER));
    all(&guard, [Some(2), Some(1), Some(0), Some(1), Some(1)]);
    assert_eq!(guard.return_call(BUSY), Ok(AUDIT));
    all(&guard, [Some(1), Some(0), None, Some(0), Some(0)]);
    assert_eq!(guard.return_call(BUSY), Ok(RECALCULATION));
    all(&guard, [Some(0), None, None, Some(0), None]);
    assert_eq!(guard.return_call(BUSY), Ok(LOADER));
    all(&guard, [None; 5]);
}

/// From the newest to the oldest of sixteen.
#[test]
fn every_place() {
    let mut guard = office();
    call(&mut guard, &[LOADER]);
    for place in 0..MOST_OPEN_CALLS {
        found(&guard, &[(s(LOADER), Some(place)), (d(0), Some(place))]);
        let newest = (place > 0).then_some(0);
        found(&guard, &[(s(AUDIT), newest), (s(RECALCULATION), None)]);
        let called = guard.call_segment(BUSY, AUDIT);
        assert_eq!(called.is_ok(), place + 1 < MOST_OPEN_CALLS);
    }
    assert_eq!(guard.depth(BUSY), Some(16));
    found(&guard, &[(s(LOADER), Some(15))]);
}

/// U and R keys are held and handed over by no call; a sheet isn't called; and
/// the others were never handed out.
#[test]
fn what_no_open_call_hands_over() {
    let mut guard = office();
    call(&mut guard, &[LOADER, RECALCULATION]);
    let held = guard.thread(BUSY).expect("a live thread").keys();
    for key in [Key::User(OWNER), Key::Thread(BUSY)] {
        assert!(held.contains(&key), "{key}");
        found(&guard, &[(key, None)]);
    }
    for key in [s(AUDIT), s(SHEET), d(2), Key::Thread(IDLE)] {
        found(&guard, &[(key, None)]);
    }
    for number in [3, 4, 63, 64, 1_023, 1_024, u16::MAX] {
        found(
            &guard,
            &[(Key::User(User(number)), None), (d(number), None)],
        );
        found(&guard, &[(Key::Thread(Thread(number)), None)]);
    }
    for number in [4, 63, 64, u16::MAX] {
        found(&guard, &[(s(Segment(number)), None)]);
    }
}

/// What is given meanwhile comes with later calls. What is taken is gone at once from
/// the segment's open calls, and given again it comes with later ones.
#[test]
fn lists_change_while_calls_are_open() {
    let mut guard = office();
    call(&mut guard, &[RECALCULATION, LOADER]);
    give(&mut guard, LOADER, 2);
    found(&guard, &[(d(0), Some(0)), (d(1), Some(1)), (d(2), None)]);
    assert_eq!(guard.take_key(IDLE, LOADER, Defined(0)), Ok(2));
    found(
        &guard,
        &[(s(LOADER), Some(0)), (d(0), Some(1)), (d(1), Some(1))],
    );
    assert_eq!(guard.take_key(BUSY, RECALCULATION, Defined(0)), Ok(2));
    found(&guard, &[(d(0), None), (d(1), Some(1))]);
    let held = guard.thread(BUSY).expect("a live thread").keys();
    assert!(held.contains(&d(1)) && !held.contains(&d(0)));
    give(&mut guard, LOADER, 0);
    found(&guard, &[(d(0), None), (d(2), None)]);
    call(&mut guard, &[LOADER]);
    found(&guard, &[(d(0), Some(0)), (d(1), Some(2)), (d(2), Some(0))]);
    assert_eq!(guard.return_call(BUSY), Ok(LOADER));
    found(&guard, &[(d(0), None), (d(1), Some(1)), (d(2), None)]);
}

/// Of another thread nothing is found, nor in its place once it has ended.
#[test]
fn other_threads() {
    let mut guard = office();
    call(&mut guard, &[LOADER, RECALCULATION]);
    for key in [s(LOADER), s(RECALCULATION), d(0), d(1)] {
        assert_eq!(guard.find_key(IDLE, key), Ok(None), "{key}");
    }
    assert_eq!(guard.end_thread(BUSY), Ok(2));
    assert_eq!(guard.start_thread(OWNER), Ok(NOBODY));
    for key in [s(LOADER), s(RECALCULATION), d(0), d(1)] {
        assert_eq!(guard.find_key(NOBODY, key), Ok(None), "{key}");
        assert_eq!(guard.find_key(BUSY, key), Err(FindKey::NoThread), "{key}");
    }
}

/// Whichever key is asked for.
#[test]
fn a_thread_that_is_not_live() {
    let mut guard = office();
    call(&mut guard, &[LOADER]);
    assert_eq!(guard.end_thread(IDLE), Ok(0));
    for thread in [IDLE, NOBODY, Thread(64), Thread(u16::MAX)] {
        for key in [
            s(LOADER),
            d(0),
            d(u16::MAX),
            Key::User(OWNER),
            Key::Thread(thread),
        ] {
            let refused = guard.find_key(thread, key);
            assert_eq!(refused, Err(FindKey::NoThread), "{thread}, {key}");
        }
    }
    let refused = Guard::new().find_key(BUSY, s(LOADER));
    let refusal = Refusal::from(refused.expect_err("no thread at all"));
    assert_eq!(refusal, Refusal::NoThread);
    assert_eq!((refusal.number(), refusal.second()), (2, 0));
}

/// The place is the one in the view of the thread, whose first frame is the
/// newest.
#[test]
fn the_place_in_the_view() {
    let mut guard = office();
    call(&mut guard, &[LOADER, RECALCULATION, AUDIT, RECALCULATION]);
    let frames = guard.thread(BUSY).expect("a live thread").frames;
    for (key, segment) in [
        (d(0), RECALCULATION),
        (d(1), RECALCULATION),
        (s(AUDIT), AUDIT),
        (s(LOADER), LOADER),
    ] {
        let place = guard.find_key(BUSY, key).expect("a live thread");
        let (newer, rest) = frames.split_at(place.expect("an open call"));
        assert_eq!(rest[0].segment, segment, "{key}");
        assert!(rest[0].keys.contains(&key), "{key}");
        assert!(
            newer.iter().all(|frame| !frame.keys.contains(&key)),
            "{key}"
        );
    }
}
