//! Who edits is the user of the thread that the edit names: worked examples by
//! hand from document 02, P4.

use rotundaaloe::journal::{MARK, Records, VERSION};
use rotundaaloe::{
    Defined, Guard, Journal, Kind, Lock, Operations, Segment, Thread, User, refusal,
};

const CLERK: User = User(0);
const OWNER: User = User(1);

/// No thread has the number of its user.
const FIRST: Thread = Thread(0);
const CLERKS: Thread = Thread(1);
const SECOND: Thread = Thread(2);
/// Not started.
const NOBODY: Thread = Thread(3);

const PART: Segment = Segment(0);
const KEY: Defined = Defined(0);

/// Two users. The owner has threads 0 and 2, and by the first made a part, a key
/// and a lock.
fn office() -> Guard {
    let mut guard = Guard::new();
    for user in [CLERK, OWNER] {
        assert_eq!(guard.new_user(), Ok(user));
    }
    for (user, thread) in [(OWNER, FIRST), (CLERK, CLERKS), (OWNER, SECOND)] {
        assert_eq!(guard.start_thread(user), Ok(thread));
    }
    assert_eq!(guard.new_segment(FIRST, Kind::Code), Ok(PART));
    assert_eq!(guard.new_key(FIRST), Ok(KEY));
    let lock = guard.add_lock(FIRST, PART, Operations::EXECUTE, "U1");
    assert_eq!(lock, Ok(Lock(0)));
    guard
}

/// Each edit by the thread is refused with 2, whatever else is wrong with it, and
/// changes nothing.
#[track_caller]
fn none_by(guard: &mut Guard, thread: Thread) {
    let before = guard.clone();
    assert_eq!(
        guard.new_segment(thread, Kind::Code),
        Err(refusal::NewSegment::NoThread)
    );
    assert_eq!(guard.new_key(thread), Err(refusal::NewKey::NoThread));
    for (segment, key) in [(PART, KEY), (Segment(9), Defined(9))] {
        assert_eq!(
            guard.give_key(thread, segment, key),
            Err(refusal::GiveKey::NoThread)
        );
        assert_eq!(
            guard.take_key(thread, segment, key),
            Err(refusal::TakeKey::NoThread)
        );
    }
    for (operations, text) in [(Operations::EXECUTE, "U0"), (Operations(0), "")] {
        assert_eq!(
            guard.add_lock(thread, PART, operations, text),
            Err(refusal::AddLock::NoThread)
        );
    }
    for lock in [Lock(0), Lock(9)] {
        assert_eq!(
            guard.drop_lock(thread, lock),
            Err(refusal::DropLock::NoThread)
        );
    }
    assert!(*guard == before);
}

#[test]
fn a_thread_that_is_not_live_edits_nothing() {
    none_by(&mut Guard::new(), FIRST);
    let mut guard = office();
    for thread in [NOBODY, Thread(64), Thread(u16::MAX)] {
        none_by(&mut guard, thread);
    }
    assert_eq!(guard.end_thread(FIRST), Ok(0));
    none_by(&mut guard, FIRST);
    // Nor once another stands in its place.
    assert_eq!(guard.start_thread(OWNER), Ok(NOBODY));
    none_by(&mut guard, FIRST);
    // A user alone edits nothing.
    let mut guard = Guard::new();
    assert_eq!(guard.new_user(), Ok(CLERK));
    none_by(&mut guard, FIRST);
}

/// What a thread made is its user's, so another thread of the user edits it, and
/// still does when the first has ended.
#[test]
fn every_thread_of_the_user_edits() {
    for ended in [false, true] {
        let mut guard = office();
        if ended {
            assert_eq!(guard.end_thread(FIRST), Ok(0));
        }
        assert_eq!(guard.segments()[0].owner, OWNER);
        assert_eq!(guard.cells().makers[0], OWNER.0);
        assert_eq!(guard.give_key(SECOND, PART, KEY), Ok(2));
        assert_eq!(guard.take_key(SECOND, PART, KEY), Ok(1));
        assert_eq!(guard.drop_lock(SECOND, Lock(0)), Ok(1));
        let lock = guard.add_lock(SECOND, PART, Operations::EXECUTE, "!U0");
        assert_eq!(lock, Ok(Lock(1)));
    }
}

/// The clerk's thread has the owner's number, and is not the owner.
#[test]
fn a_thread_of_another_user_does_not() {
    let mut guard = office();
    assert_eq!(CLERKS.0, OWNER.0);
    assert_eq!(guard.give_key(FIRST, PART, KEY), Ok(2));
    assert_eq!(
        guard.take_key(CLERKS, PART, KEY),
        Err(refusal::TakeKey::NotOwner)
    );
    assert_eq!(
        guard.add_lock(CLERKS, PART, Operations::EXECUTE, "U0"),
        Err(refusal::AddLock::NotOwner)
    );
    assert_eq!(
        guard.drop_lock(CLERKS, Lock(0)),
        Err(refusal::DropLock::NotOwner)
    );
    // Of a key the maker counts too, of an own part.
    assert_eq!(guard.new_segment(CLERKS, Kind::Code), Ok(Segment(1)));
    assert_eq!(guard.segments()[1].owner, CLERK);
    assert_eq!(
        guard.give_key(CLERKS, Segment(1), KEY),
        Err(refusal::GiveKey::NotOwner)
    );
    assert_eq!(guard.new_key(CLERKS), Ok(Defined(1)));
    assert_eq!(guard.give_key(CLERKS, Segment(1), Defined(1)), Ok(2));
}

/// S and the lock list are about a user, as before.
#[test]
fn a_user_is_named_to_start_a_thread_and_to_list_locks() {
    let mut guard = office();
    let stranger = User(2);
    assert_eq!(
        guard.start_thread(stranger),
        Err(refusal::StartThread::UnknownUser)
    );
    assert_eq!(
        guard.locks(stranger, PART),
        Err(refusal::Locks::UnknownUser)
    );
    let keys = |user| guard.locks(user, PART).expect("a list")[0].keys.len();
    assert_eq!([keys(OWNER), keys(CLERK)], [1, 0]);
}

/// Document 01's empty file, with the version of document 02, and no other.
#[test]
fn journals_are_of_version_2() {
    assert_eq!(Journal::new().as_bytes(), b"KLD\x02\x00\x00\x00");
    let file = |version: u16| [MARK, &version.to_le_bytes()[..], &[0, 0]].concat();
    for version in [0, 1, 3, 256, 257, 258, 512, u16::MAX] {
        let refused = Records::open(&file(version)).map(Iterator::count);
        assert_eq!(refused, Err(refusal::Read::OtherVersion), "{version}");
    }
    assert_eq!(Records::open(&file(VERSION)).map(Iterator::count), Ok(0));
}
