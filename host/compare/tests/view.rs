//! What the library tells of a state: against the history on lists of calls, and
//! against the guard's own answers on arrays that no list leads to.

use compare::journal::lent;
use compare::typed::{key, literal};
use reference::history::History;
use rotundaaloe::formula::{Key, Literal, Product};
use rotundaaloe::raw::Cells;
use rotundaaloe::view::{Frame, Lock, Segment, Thread};
use rotundaaloe::{Access, Guard, Kind, Operations, Recorder, Refusal, User, refusal};
use std::collections::BTreeSet;
use testing::calls::{Caller, WORLDS};
use testing::random::Random;
use testing::withdrawals;

/// The live threads that the history tells of.
fn threads(history: &History) -> Vec<Thread> {
    let thread = |number: u16| {
        let thread = history.thread(number).expect("a live thread");
        let calls = thread.open_calls.iter().rev();
        let frame = |call: &reference::history::OpenCall| Frame {
            segment: rotundaaloe::Segment(call.segment),
            keys: call.list.iter().map(key).collect(),
        };
        Thread {
            number: rotundaaloe::Thread(number),
            user: User(thread.user),
            frames: calls.map(frame).collect(),
        }
    };
    history.live_threads().map(thread).collect()
}

/// A segment as the history tells of it, without its locks.
fn segment(history: &History, number: u16) -> Segment {
    let segment = history.segment(number).expect("a segment");
    Segment {
        number: rotundaaloe::Segment(number),
        owner: User(segment.owner),
        kind: match segment.sheet {
            true => Kind::Sheet,
            false => Kind::Code,
        },
        keys: segment.list.iter().map(key).collect(),
        locks: Vec::new(),
    }
}

/// A lock as its number, segment, operations and literals.
type Told = (u16, u16, u16, Vec<Vec<Literal>>);

fn locks(history: &History) -> Vec<Told> {
    let told = |(number, lock): (u16, &reference::history::Lock)| {
        let sum = lock.formula.sum_of_products().expect("it stands");
        let literals = |product: &reference::formula::Product| {
            product.literals().iter().map(literal).collect()
        };
        let products = sum.iter().map(literals).collect();
        (number, lock.segment, lock.operations, products)
    };
    history.standing().map(told).collect()
}

fn locks_of(segments: &[Segment]) -> Vec<Told> {
    let mut all = Vec::new();
    for Segment { number, locks, .. } in segments {
        for lock in locks {
            let products = lock.products.iter();
            let products = products.map(|product| product.literals().to_vec());
            let products = products.collect();
            all.push((lock.number.0, number.0, lock.operations.0, products));
        }
    }
    all.sort_by_key(|(number, ..)| *number);
    all
}

fn same_view(guard: &Guard, history: &History) {
    assert_eq!(guard.threads(), threads(history));
    for number in history.live_threads() {
        let thread = guard.thread(rotundaaloe::Thread(number));
        let thread = thread.expect("a live thread");
        let keys = history.key_set(number).expect("a live thread");
        assert_eq!(thread.keys(), keys.iter().map(key).collect());
        assert_eq!(guard.depth(thread.number), Some(thread.frames.len()));
    }
    let segments = guard.segments();
    assert_eq!(locks_of(&segments), locks(history));
    let numbers = history.segments();
    let expected: Vec<Segment> = numbers.map(|number| segment(history, number)).collect();
    let without_locks = |segment: Segment| Segment {
        locks: Vec::new(),
        ..segment
    };
    let given: Vec<Segment> = segments.into_iter().map(without_locks).collect();
    assert_eq!(given, expected);
}

/// A recorder is asked, so its journal is compared too: the guard that it
/// replays to is the same.
#[test]
fn lists_of_calls() {
    let mut random = Random::new(15);
    let mut most = [0; 3];
    for list in 0..100 {
        let mut recorder = Recorder::new();
        let mut history = History::new();
        let mut caller = Caller::new(&mut random, &WORLDS[list % WORLDS.len()]);
        for place in 0..caller.length() {
            let record = caller.next_call();
            let answer = recorder.call(lent(&record)).ok();
            history.feed(&record, answer);
            if let Some(answer) = answer {
                caller.learn(&record, answer);
            }
            if place % 50 == 0 {
                same_view(recorder.guard(), &history);
            }
        }
        same_view(recorder.guard(), &history);
        let replayed = Recorder::replay(recorder.journal().clone());
        let is_whole = recorder.missing().is_none_or(|missing| !missing.ended);
        assert!(is_whole == (replayed.guard() == recorder.guard()));
        let segments = recorder.guard().segments();
        let there = [
            recorder.guard().threads().len(),
            segments.len(),
            locks_of(&segments).len(),
        ];
        most = [0, 1, 2].map(|count| most[count].max(there[count]));
    }
    assert_eq!(most[..2], [64, 64]);
    assert!(most[2] > 64, "{most:?}");
}

/// What an open call hands over is told in the order of the list that it found, also
/// after keys of it were taken.
#[test]
fn lists_of_withdrawals() {
    let mut random = Random::new(17);
    let mut withdrawn = 0;
    for _ in 0..200 {
        let mut guard = Guard::new();
        let mut history = History::new();
        for record in withdrawals::list(&mut random) {
            let answer = guard.call(lent(&record)).ok();
            history.feed(&record, answer);
            if b"GT".contains(&record.letter) {
                same_view(&guard, &history);
            }
        }
        same_view(&guard, &history);
        let threads = history
            .live_threads()
            .filter_map(|live| history.thread(live));
        let mut calls = threads.flat_map(|thread| &thread.open_calls);
        withdrawn += usize::from(calls.any(|call| call.list.len() < call.found.len()));
    }
    assert!(withdrawn > 100, "{withdrawn}");
}

/// Numbers of which some are small, so that calls find what they name.
fn drawn(random: &mut Random) -> Guard {
    let mut cells = Box::new(Cells::EMPTY);
    let small = random.between(1, 20);
    let mut number = || match random.one_in(small) {
        true => random.bits() as u32,
        false => random.below(80) as u32,
    };
    cells.registry.fill_with(&mut number);
    let locks = cells.locks.as_flattened_mut();
    locks.as_flattened_mut().fill_with(&mut number);
    for row in locks {
        // A lock's number, how many literals, and the operations.
        row[0] |= ((number() % 256) << 16) | (number() % 256);
    }
    let mut half = || number() as u16;
    let segments = cells.segments.as_flattened_mut();
    segments.as_flattened_mut().fill_with(&mut half);
    let threads = cells.threads.as_flattened_mut();
    threads.as_flattened_mut().fill_with(&mut half);
    for segment in &mut cells.segments {
        segment[0][1] %= 3;
    }
    Guard::from_cells(cells)
}

/// What the locks answer, from what the library tells of them. Of equal ones it is the
/// first.
fn checked(thread: &Thread, segment: &Segment, operation: u16) -> Result<u16, Refusal> {
    let keys: BTreeSet<Key> = thread.keys();
    let agrees = |literal: &Literal| match literal {
        Literal::Plain(key) => keys.contains(key),
        Literal::Barred(key) => !keys.contains(key),
    };
    let opens = |product: &&Product| product.literals().iter().all(agrees);
    let longest = |lock: &Lock| {
        let opening = lock.products.iter().filter(opens);
        opening.map(|product| product.literals().len()).max()
    };
    let opening = |deny: u16| {
        let locks = segment.locks.iter();
        locks.filter(move |lock| {
            let Operations(set) = lock.operations;
            set & operation != 0 && set & 8 == deny && longest(lock).is_some()
        })
    };
    let most = opening(0).map(longest).max();
    let tightest = opening(0).find(|lock| Some(longest(lock)) == most);
    match (opening(8).next(), tightest) {
        (Some(lock), _) => Err(Refusal::Denied(lock.number)),
        (None, Some(lock)) => Ok(lock.number.0),
        (None, None) => Err(Refusal::NotGranted),
    }
}

/// A call's answer, and the open call that it leaves.
fn called(guard: &Guard, thread: &Thread, segment: &Segment) -> Result<u16, Refusal> {
    let mut guard = guard.clone();
    let lock = guard.call_segment(thread.number, segment.number)?;
    let after = guard.thread(thread.number).expect("it is live");
    let frame = Frame {
        segment: segment.number,
        keys: segment.keys.clone(),
    };
    assert_eq!(after.frames[0], frame);
    assert_eq!(after.frames[1..], thread.frames);
    Ok(lock.0)
}

/// The guard's answer to a thread's call or write, which must be that of what the
/// library tells.
fn answered(guard: &Guard, thread: &Thread, segment: &Segment) -> Result<u16, Refusal> {
    let (answer, expected) = match segment.kind {
        Kind::Code => {
            let expected = match checked(thread, segment, 1) {
                Ok(_) if thread.frames.len() == 16 => Err(Refusal::Full),
                other => other,
            };
            (called(guard, thread, segment), expected)
        }
        Kind::Sheet => {
            let answer = guard.access(thread.number, segment.number, Access::Write);
            let answer = answer.map(|lock| lock.0).map_err(Refusal::from);
            (answer, checked(thread, segment, 4))
        }
    };
    assert_eq!(answer, expected, "{thread:?} {segment:?}");
    answer
}

#[test]
fn any_numbers() {
    let mut random = Random::new(16);
    let mut seen = [0; 4];
    for _ in 0..300 {
        let guard = drawn(&mut random);
        let segments = guard.segments();
        // Of several with one number the guard answers for one.
        let numbers = guard.threads().into_iter().map(|thread| thread.number);
        for thread in numbers.map(|number| guard.thread(number).expect("it is live")) {
            let frames = thread.frames.len();
            assert_eq!(guard.clone().end_thread(thread.number), Ok(frames as u16));
            let newest = thread.frames.first().map(|frame| frame.segment);
            let left = newest.ok_or(refusal::ReturnCall::NotPresent);
            assert_eq!(guard.clone().return_call(thread.number), left);
            for _ in 0..segments.len().min(4) {
                let segment = &segments[random.below(segments.len())];
                let outcome = match answered(&guard, &thread, segment) {
                    Ok(_) => 0,
                    Err(Refusal::Denied(_)) => 1,
                    Err(Refusal::NotGranted) => 2,
                    Err(_) => 3,
                };
                seen[outcome] += 1;
            }
        }
    }
    assert!(seen.iter().all(|count| *count > 500), "{seen:?}");
}
