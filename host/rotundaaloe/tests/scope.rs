//! A scope for a call: the thread has as many open calls after it as before it,
//! however it ends.

use rotundaaloe::{
    Access, Call, Guard, Kind, Lock, Operations, Record, Recorder, Refusal, Segment, Thread, User,
    refusal,
};
use std::panic::{AssertUnwindSafe, catch_unwind};
use std::sync::RwLock;

const OWNER: User = User(0);
const LOADER: Segment = Segment(0);
const RECALCULATION: Segment = Segment(1);
const TOTALS: Segment = Segment(2);
const THREAD: Thread = Thread(0);

/// Two parts that the owner calls, and totals that are written by way of both.
fn office() -> Guard {
    let mut guard = Guard::new();
    guard.new_user().unwrap();
    guard.start_thread(OWNER).unwrap();
    guard.new_segment(THREAD, Kind::Code).unwrap();
    guard.new_segment(THREAD, Kind::Code).unwrap();
    guard.new_segment(THREAD, Kind::Sheet).unwrap();
    guard
        .add_lock(THREAD, LOADER, Operations::EXECUTE, "U0")
        .unwrap();
    guard
        .add_lock(THREAD, RECALCULATION, Operations::EXECUTE, "U0")
        .unwrap();
    guard
        .add_lock(THREAD, TOTALS, Operations::WRITE, "S0&S1")
        .unwrap();
    guard
}

/// The segments of the thread's open calls, the newest first.
fn stack(guard: &Guard) -> Vec<Segment> {
    let thread = guard.thread(THREAD).expect("a live thread");
    thread.frames.iter().map(|frame| frame.segment).collect()
}

#[test]
fn nested_scopes_give_what_the_innermost_gives() {
    let mut guard = office();
    let write = |guard: &mut Guard| guard.access(THREAD, TOTALS, Access::Write);
    let through = |guard: &mut Guard| {
        guard.within(THREAD, RECALCULATION, |guard| {
            assert_eq!(stack(guard), [RECALCULATION, LOADER]);
            write(guard)
        })
    };
    assert_eq!(guard.within(THREAD, LOADER, through), Ok(Ok(Ok(Lock(2)))));
    assert_eq!(stack(&guard), []);
    let alone = guard.within(THREAD, RECALCULATION, write);
    assert_eq!(alone, Ok(Err(refusal::Access::NotGranted)));
    assert_eq!(stack(&guard), []);
}

#[test]
fn a_refused_call_runs_nothing() {
    let mut guard = office();
    let before = guard.clone();
    for (thread, segment, refused) in [
        (Thread(1), LOADER, refusal::CallSegment::NoThread),
        (THREAD, Segment(3), refusal::CallSegment::NoSegment),
        (THREAD, TOTALS, refusal::CallSegment::Unfit),
    ] {
        let answer = guard.within(thread, segment, |_| unreachable!());
        assert_eq!(answer, Err::<(), _>(refused));
    }
    assert!(guard == before);
    // At the deepest, too: the sixteen calls stay.
    for _ in 0..16 {
        guard.call_segment(THREAD, LOADER).unwrap();
    }
    let answer = guard.within(THREAD, LOADER, |_| unreachable!());
    assert_eq!(answer, Err::<(), _>(refusal::CallSegment::Full));
    assert_eq!(guard.depth(THREAD), Some(16));
}

#[test]
fn an_error_returns() {
    fn save(guard: &mut Guard) -> Result<Lock, Refusal> {
        guard.within(THREAD, LOADER, |guard| {
            guard.access(THREAD, TOTALS, Access::Read)?;
            unreachable!("nothing grants reading")
        })?
    }
    let mut guard = office();
    assert_eq!(save(&mut guard), Err(Refusal::NotGranted));
    assert_eq!(stack(&guard), []);
}

#[test]
fn a_panic_returns() {
    let mut guard = office();
    guard.call_segment(THREAD, RECALCULATION).unwrap();
    let caught = catch_unwind(AssertUnwindSafe(|| {
        guard.within(THREAD, LOADER, |guard| {
            guard.within(THREAD, RECALCULATION, |_| panic!("a part that fails"))
        })
    }));
    assert!(caught.is_err());
    assert_eq!(stack(&guard), [RECALCULATION]);
}

#[test]
fn inner_calls_that_were_left_open_are_returned_from() {
    let mut guard = office();
    guard.call_segment(THREAD, RECALCULATION).unwrap();
    let depth = guard.within(THREAD, LOADER, |guard| {
        guard.call_segment(THREAD, LOADER).unwrap();
        guard.call_segment(THREAD, RECALCULATION).unwrap();
        guard.depth(THREAD)
    });
    assert_eq!(depth, Ok(Some(4)));
    assert_eq!(stack(&guard), [RECALCULATION]);
}

#[test]
fn a_body_that_returned_is_not_returned_from_again() {
    let mut guard = office();
    guard.call_segment(THREAD, RECALCULATION).unwrap();
    guard.call_segment(THREAD, LOADER).unwrap();
    // Once: that was the scope's own call.
    let left = guard.within(THREAD, LOADER, |guard| guard.return_call(THREAD));
    assert_eq!(left, Ok(Ok(LOADER)));
    assert_eq!(stack(&guard), [LOADER, RECALCULATION]);
    // Twice: one that was open before is gone, and no more.
    let left = guard.within(THREAD, RECALCULATION, |guard| {
        [guard.return_call(THREAD), guard.return_call(THREAD)]
    });
    assert_eq!(left, Ok([Ok(RECALCULATION), Ok(LOADER)]));
    assert_eq!(stack(&guard), [RECALCULATION]);
}

#[test]
fn a_body_that_ended_the_thread() {
    let mut guard = office();
    let ended = guard.within(THREAD, LOADER, |guard| guard.end_thread(THREAD));
    assert_eq!(ended, Ok(Ok(1)));
    assert_eq!(guard.depth(THREAD), None);
    assert_eq!(
        guard.return_call(THREAD),
        Err(refusal::ReturnCall::NoThread)
    );
}

#[test]
fn other_threads_are_left_alone() {
    let mut guard = office();
    let other = guard.start_thread(OWNER).unwrap();
    let called = guard.within(THREAD, LOADER, |guard| guard.call_segment(other, LOADER));
    assert_eq!(called, Ok(Ok(Lock(0))));
    assert_eq!(guard.depth(THREAD), Some(0));
    assert_eq!(guard.depth(other), Some(1));
}

/// The thread is found where the guard finds it, also where it doesn't stand at
/// its number's remainder by 64.
#[test]
fn threads_away_from_home() {
    let mut guard = office();
    for _ in 1..64 {
        guard.start_thread(OWNER).unwrap();
    }
    guard.end_thread(Thread(7)).unwrap();
    // Number 64 would stand where thread 0 does.
    let away = guard.start_thread(OWNER).unwrap();
    assert_eq!(away, Thread(64));
    guard.call_segment(THREAD, LOADER).unwrap();
    let depths = guard.within(away, LOADER, |guard| {
        guard.call_segment(away, LOADER).unwrap();
        [guard.depth(THREAD), guard.depth(away)]
    });
    assert_eq!(depths, Ok([Some(1), Some(2)]));
    assert_eq!([guard.depth(THREAD), guard.depth(away)], [Some(1), Some(0)]);
}

#[test]
fn a_recorder_records_the_returns() {
    let mut recorder = Recorder::new();
    recorder.new_user().unwrap();
    recorder.start_thread(OWNER).unwrap();
    recorder.new_segment(THREAD, Kind::Code).unwrap();
    recorder
        .add_lock(THREAD, LOADER, Operations::EXECUTE, "U0")
        .unwrap();
    let caught = catch_unwind(AssertUnwindSafe(|| {
        recorder.within(THREAD, LOADER, |recorder| {
            recorder.call_segment(THREAD, LOADER).unwrap();
            panic!("a part that fails")
        })
    }));
    assert!(caught.is_err());
    let refused = recorder.within(THREAD, Segment(9), |_| unreachable!());
    assert_eq!(refused, Err::<(), _>(refusal::CallSegment::NoSegment));
    let called = Call::CallSegment {
        thread: THREAD,
        segment: LOADER,
    };
    let returned = Call::ReturnCall { thread: THREAD };
    let missing = Call::CallSegment {
        thread: THREAD,
        segment: Segment(9),
    };
    let expected = [called, called, returned, returned, missing].map(Record::from);
    assert!(recorder.journal().records().skip(4).eq(expected));
    assert_eq!(recorder.guard().depth(THREAD), Some(0));
}

/// While a body runs others may ask, and one that panics leaves a guard that all
/// can go on with.
#[test]
fn a_shared_guard_is_free_while_a_body_runs() {
    let guard = RwLock::new(office());
    let write = || {
        let guard = guard.try_read().expect("nobody holds it");
        guard.access(THREAD, TOTALS, Access::Write)
    };
    let through = || Guard::within_shared(&guard, THREAD, RECALCULATION, write);
    let written = Guard::within_shared(&guard, THREAD, LOADER, through);
    assert_eq!(written, Ok(Ok(Ok(Lock(2)))));
    let panicked = catch_unwind(AssertUnwindSafe(|| {
        Guard::within_shared(&guard, THREAD, LOADER, || panic!("on purpose"))
    }));
    assert!(panicked.is_err());
    assert!(!guard.is_poisoned());
    assert_eq!(stack(&guard.read().unwrap()), []);
    let refused = Guard::within_shared(&guard, THREAD, TOTALS, || panic!("not run"));
    assert_eq!(refused, Err(refusal::CallSegment::Unfit));
}

#[test]
fn a_poisoned_lock_keeps_no_scope_from_returning() {
    let guard = RwLock::new(office());
    let panicked = catch_unwind(AssertUnwindSafe(|| {
        Guard::within_shared(&guard, THREAD, LOADER, || {
            let _held = guard.write().unwrap();
            panic!("on purpose");
        })
    }));
    assert!(panicked.is_err());
    assert!(guard.is_poisoned());
    guard.clear_poison();
    assert_eq!(stack(&guard.read().unwrap()), []);
}
