//! A recording guard: the guard's answers, and a journal that replays to them.

use rotundaaloe::limits::JOURNAL_BYTES;
use rotundaaloe::recorder::Missing;
use rotundaaloe::{
    Access, Call, Defined, Guard, Journal, Kind, Letter, Lock, Operations, Record, Recorder,
    Segment, Thread, User, refusal,
};

const OWNER: User = User(0);
const CODE: Segment = Segment(0);
const SHEET: Segment = Segment(1);
const THREAD: Thread = Thread(0);
/// Never started.
const NOBODY: Thread = Thread(9);

/// Each of the twelve calls, some of them refused.
#[test]
fn answers_and_records() {
    let mut recorder = Recorder::new();
    assert_eq!(
        recorder.start_thread(OWNER),
        Err(refusal::StartThread::UnknownUser)
    );
    assert_eq!(recorder.new_user(), Ok(OWNER));
    assert_eq!(
        recorder.new_segment(THREAD, Kind::Code),
        Err(refusal::NewSegment::NoThread)
    );
    assert_eq!(recorder.start_thread(OWNER), Ok(THREAD));
    assert_eq!(recorder.new_segment(THREAD, Kind::Code), Ok(CODE));
    assert_eq!(recorder.new_segment(THREAD, Kind::Sheet), Ok(SHEET));
    assert_eq!(recorder.new_key(THREAD), Ok(Defined(0)));
    assert_eq!(recorder.give_key(THREAD, CODE, Defined(0)), Ok(2));
    assert_eq!(
        recorder.add_lock(THREAD, CODE, Operations::EXECUTE, "U0"),
        Ok(Lock(0))
    );
    let barred = recorder.add_lock(THREAD, SHEET, Operations::WRITE.denied(), "!D0");
    assert_eq!(barred, Ok(Lock(1)));
    let denied = recorder.access(THREAD, SHEET, Access::Write);
    assert_eq!(denied, Err(refusal::Access::Denied(Lock(1))));
    assert_eq!(recorder.call_segment(THREAD, CODE), Ok(Lock(0)));
    assert_eq!(recorder.take_key(THREAD, CODE, Defined(0)), Ok(1));
    assert_eq!(recorder.return_call(THREAD), Ok(CODE));
    assert_eq!(recorder.drop_lock(THREAD, Lock(1)), Ok(1));
    assert_eq!(recorder.call(Call::EndThread { thread: THREAD }), Ok(0));
    assert_eq!(
        recorder.end_thread(THREAD),
        Err(refusal::EndThread::NoThread)
    );
    let expected: [(u8, [u16; 3], &[u8]); 17] = [
        (b'S', [0, 0, 0], b""),
        (b'U', [0, 0, 0], b""),
        (b'N', [0, 0, 0], b""),
        (b'S', [0, 0, 0], b""),
        (b'N', [0, 0, 0], b""),
        (b'N', [0, 1, 0], b""),
        (b'K', [0, 0, 0], b""),
        (b'G', [0, 0, 0], b""),
        (b'L', [0, 0, 1], b"U0"),
        (b'L', [0, 1, 12], b"!D0"),
        (b'A', [0, 1, 4], b""),
        (b'C', [0, 0, 0], b""),
        (b'T', [0, 0, 0], b""),
        (b'R', [0, 0, 0], b""),
        (b'D', [0, 1, 0], b""),
        (b'E', [0, 0, 0], b""),
        (b'E', [0, 0, 0], b""),
    ];
    let record = |(letter, [a, b, c], text): (u8, [u16; 3], _)| Record {
        letter,
        a,
        b,
        c,
        text,
    };
    assert!(recorder.journal().records().eq(expected.map(record)));
    for letter in Letter::ALL {
        let is_asked = expected.iter().any(|call| call.0 == letter.byte());
        assert!(is_asked, "no call {letter:?}");
    }
    assert_eq!(recorder.missing(), None);
    let replayed = Recorder::replay(recorder.journal().clone());
    assert_eq!(replayed, recorder);
}

fn replays_the_same(recorder: &Recorder) -> bool {
    Recorder::replay(recorder.journal().clone()).guard() == recorder.guard()
}

/// No record can hold such an L, and no guard accepts it.
#[test]
fn texts_that_no_record_holds() {
    let mut recorder = Recorder::new();
    recorder.new_user().unwrap();
    recorder.start_thread(OWNER).unwrap();
    recorder.new_segment(THREAD, Kind::Sheet).unwrap();
    let malformed = Err(refusal::AddLock::Malformed);
    assert_eq!(
        recorder.add_lock(THREAD, CODE, Operations::READ, ""),
        malformed
    );
    let missing = |calls| Missing {
        calls,
        first: 3,
        refusal: refusal::Append::Corrupt,
        ended: false,
    };
    assert_eq!(recorder.missing(), Some(missing(1)));
    let long = "!".repeat(95) + "U0";
    assert_eq!(
        recorder.add_lock(THREAD, CODE, Operations::READ, &long),
        malformed
    );
    assert_eq!(recorder.missing(), Some(missing(2)));
    // The journal goes on, and replays the same.
    assert_eq!(recorder.new_user(), Ok(User(1)));
    assert_eq!(recorder.journal().records().count(), 4);
    assert_eq!(recorder.missing(), Some(missing(2)));
    assert!(replays_the_same(&recorder));
}

/// A recorder with so many bytes left in its journal, and a sheet.
fn with_bytes_left(left: usize) -> Recorder {
    let mut journal = Journal::new();
    journal.append(Record::new_user()).unwrap();
    journal.append(Record::start_thread(OWNER)).unwrap();
    journal
        .append(Record::new_segment(THREAD, Kind::Sheet))
        .unwrap();
    let bytes_left = |journal: &Journal| JOURNAL_BYTES - journal.as_bytes().len();
    while bytes_left(&journal) >= left + 9 + 9 {
        journal.append(Record::new_key(NOBODY)).unwrap();
    }
    let text = "!".repeat(bytes_left(&journal) - left - 9);
    let last = match text.is_empty() {
        true => Record::new_key(NOBODY),
        false => Record::add_lock(NOBODY, CODE, Operations::READ, &text),
    };
    journal.append(last).unwrap();
    assert_eq!(bytes_left(&journal), left);
    Recorder::replay(journal)
}

#[test]
fn a_full_journal_keeps_nobody_from_asking() {
    let mut recorder = with_bytes_left(8);
    let asked = recorder.journal().records().count() as u64;
    let full = recorder.journal().clone();
    // A refused call changed nothing.
    let refused = recorder.end_thread(NOBODY);
    assert_eq!(refused, Err(refusal::EndThread::NoThread));
    let missing = |calls, ended| Missing {
        calls,
        first: asked,
        refusal: refusal::Append::Full,
        ended,
    };
    assert_eq!(recorder.missing(), Some(missing(1, false)));
    assert!(replays_the_same(&recorder));
    assert_eq!(recorder.new_user(), Ok(User(1)));
    assert_eq!(recorder.missing(), Some(missing(2, true)));
    assert_eq!(recorder.new_user(), Ok(User(2)));
    assert_eq!(recorder.missing(), Some(missing(3, true)));
    assert!(!replays_the_same(&recorder));
    assert_eq!(*recorder.journal(), full);
    let (guard, journal) = recorder.into_parts();
    assert_eq!(guard.left().users, 29);
    assert_eq!(journal, full);
}

/// A hole in a journal would make the rest replay otherwise.
#[test]
fn nothing_follows_an_accepted_call_that_is_missing() {
    let mut recorder = with_bytes_left(20);
    let before = recorder.journal().clone();
    // 9 bytes and a text of 12.
    let lock = recorder.add_lock(THREAD, CODE, Operations::READ, "!!!!!!!!!!U0");
    assert_eq!(lock, Ok(Lock(0)));
    assert!(recorder.missing().is_some_and(|missing| missing.ended));
    let lock = recorder.add_lock(THREAD, CODE, Operations::READ, "(((((U0)))))");
    assert_eq!(lock, Ok(Lock(1)));
    assert_eq!(recorder.new_user(), Ok(User(1)));
    assert_eq!(*recorder.journal(), before);
    assert_eq!(recorder.missing().map(|missing| missing.calls), Some(3));
    // A text of 11 fills it.
    let mut recorder = with_bytes_left(20);
    recorder
        .add_lock(THREAD, CODE, Operations::READ, "((((U0))))!")
        .unwrap_err();
    assert_eq!(recorder.missing(), None);
    assert_eq!(recorder.journal().as_bytes().len(), JOURNAL_BYTES);
}

#[test]
fn what_fits_follows_a_refused_call_that_is_missing() {
    let mut recorder = with_bytes_left(20);
    let malformed = recorder.add_lock(THREAD, CODE, Operations::READ, "!!!!!!!!!!!!");
    assert_eq!(malformed, Err(refusal::AddLock::Malformed));
    assert_eq!(recorder.new_user(), Ok(User(1)));
    let missing = recorder.missing().expect("the lock");
    assert_eq!((missing.calls, missing.ended), (1, false));
    assert!(replays_the_same(&recorder));
}

#[test]
fn a_replayed_journal_is_gone_on_with() {
    let mut recorder = Recorder::new();
    recorder.new_user().unwrap();
    recorder.new_user().unwrap();
    let bytes = recorder.journal().as_bytes();
    let mut again = Recorder::replay(Journal::from_bytes(bytes).unwrap());
    assert_eq!(again.new_user(), Ok(User(2)));
    assert_eq!(again.journal().records().count(), 3);
    assert_eq!(Recorder::new().guard(), &Guard::new());
}
