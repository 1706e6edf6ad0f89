//! The reference guard against the history: a second opinion on every answer,
//! read from the calls and answers alone. The worked examples, lists of many kinds,
//! and after each of these every fitting next operation of every live thread.
//!
//! `cargo test --release -- --nocapture` also prints how often each outcome came.

use reference::call::Call;
use reference::guard::{Answer, Guard, Refusal};
use reference::history::{History, Verdict};
use reference::journal::Record;
use reference::letter::Letter;
use reference::limits::MAX_FRAMES;
use reference::operations::{READ, WRITE};
use reference::{Key, Kind};
use std::collections::BTreeMap;
use testing::calls::{Caller, WORLDS, World, call, lock, outcomes};
use testing::random::Random;
use testing::trials::{self, TRIALS};

const LISTS: usize = 600;

fn verdict_of(answer: Answer) -> Verdict {
    match answer {
        Ok(lock) => Verdict::Granted(lock),
        Err(Refusal::Denied(lock)) => Verdict::Denied(lock),
        Err(Refusal::NotGranted) => Verdict::NotGranted,
        Err(Refusal::Full) => Verdict::Full,
        Err(other) => panic!("{other:?} on a live thread's fitting operation"),
    }
}

/// How often each letter, or '?' for one of no call, came to each outcome: a
/// refusal's number, or 0.
type Tally = BTreeMap<(char, u32), usize>;

/// Makes a call, and compares the outcome with the history's.
fn compared(
    guard: &mut Guard,
    history: &mut History,
    record: &Record,
    tally: &mut Tally,
) -> Answer {
    let before = guard.clone();
    let answer = guard.call(record.letter, record.a, record.b, record.c, &record.text);
    if let Some(verdict) = history.verdict(record) {
        assert_eq!(verdict_of(answer), verdict, "{record:?}");
    }
    match answer {
        Ok(answer) => assert_eq!(
            history.answer(record),
            Some(u32::from(answer)),
            "{record:?}"
        ),
        Err(_) => assert!(
            *guard == before,
            "{record:?} is refused and changes something"
        ),
    }
    history.feed(record, answer.ok());
    let outcome = answer.map_or_else(Refusal::number, |_| 0);
    let letter = Letter::of(record.letter).map_or('?', Letter::char);
    *tally.entry((letter, outcome)).or_default() += 1;
    answer
}

/// A guard whose answers are compared with the history's.
#[derive(Default)]
struct Told {
    guard: Guard,
    history: History,
    tally: Tally,
}

impl trials::Guard for Told {
    fn call(&mut self, letter: u8, [a, b, c]: [u16; 3], text: &[u8]) -> Answer {
        let text = text.to_vec();
        let record = Record {
            text,
            ..call(letter, a, b, c)
        };
        compared(&mut self.guard, &mut self.history, &record, &mut self.tally)
    }
}

/// Their answers are by hand, so the history gives those.
#[test]
fn worked_examples() {
    for (name, trial) in TRIALS {
        println!("{name}");
        trial(&mut Told::default());
    }
}

/// Every operation that fits. A C is made on a copy of the guard.
fn compare_every_operation(guard: &Guard, history: &History) -> usize {
    let mut operations = 0;
    let mut compare = |call: Call, answer: &dyn Fn() -> Answer| {
        if let Some(verdict) = history.verdict(&call.into()) {
            assert_eq!(verdict_of(answer()), verdict, "{call:?}");
            operations += 1;
        }
    };
    for thread in history.live_threads() {
        for segment in history.segments() {
            let call = Call::CallSegment { thread, segment };
            compare(call, &|| guard.clone().call_segment(thread, segment));
            for operation in [READ, WRITE] {
                let access = Call::Access {
                    thread,
                    segment,
                    operation,
                };
                compare(access, &|| guard.access(thread, segment, operation));
            }
        }
    }
    operations
}

fn compare_lists(world: &World, seed: u64, lists: usize) -> Tally {
    let mut random = Random::new(seed);
    let mut tally = Tally::new();
    let mut operations = 0;
    for _ in 0..lists {
        let mut guard = Guard::new();
        let mut history = History::new();
        let mut caller = Caller::new(&mut random, world);
        for _ in 0..caller.length() {
            let record = caller.next_call();
            if let Ok(answer) = compared(&mut guard, &mut history, &record, &mut tally) {
                caller.learn(&record, answer);
            }
        }
        operations += compare_every_operation(&guard, &history);
    }
    println!(
        "{}: {tally:?}, and {operations} next operations",
        world.name
    );
    assert!(operations > lists);
    tally
}

#[test]
fn lists_of_every_world() {
    let mut total = Tally::new();
    for (seed, world) in WORLDS.iter().enumerate() {
        let lists = LISTS
            / if world.name == "everything to its limit" {
                20
            } else {
                1
            };
        for (outcome, count) in compare_lists(world, seed as u64, lists) {
            *total.entry(outcome).or_default() += count;
        }
    }
    for letter in Letter::ALL.map(Letter::char) {
        let possible = outcomes(letter as u8);
        assert!(
            possible.len() > 1 && possible[0] == 0,
            "{letter}'s outcomes"
        );
        for outcome in possible {
            let count = total.get(&(letter, *outcome)).unwrap_or(&0);
            assert!(*count > 0, "{letter} never comes to {outcome}");
        }
    }
    for (letter, outcome) in total.keys() {
        assert!(
            outcomes(*letter as u8).contains(outcome),
            "{letter} {outcome}"
        );
    }
}

/// A list with an answer of each edit, by threads of which the first is user 1's
/// and the second user 0's.
#[test]
fn the_history_takes_the_editor_from_the_thread() {
    let edits = |thread| {
        [
            call(b'N', thread, 0, 0),
            call(b'K', thread, 0, 0),
            call(b'G', thread, 0, 1),
            call(b'T', thread, 0, 0),
            lock(thread, 0, 1, b"U0"),
            call(b'D', thread, 0, 0),
        ]
    };
    let mut history = History::new();
    for record in edits(0) {
        assert_eq!(history.answer(&record), None, "{record:?} without a thread");
    }
    for (record, answer) in [
        (call(b'U', 0, 0, 0), 0),
        (call(b'U', 0, 0, 0), 1),
        (call(b'S', 1, 0, 0), 0),
        (call(b'S', 0, 0, 0), 1),
        (call(b'N', 1, 0, 0), 0),
        (call(b'N', 0, 1, 0), 1),
        (call(b'K', 1, 0, 0), 0),
        (call(b'G', 1, 0, 0), 2),
        (lock(1, 0, 1, b"U0|U1"), 0),
    ] {
        assert_eq!(history.answer(&record), Some(answer), "{record:?}");
        history.feed(&record, Some(answer as u16));
    }
    let owner = |history: &History, segment| history.segment(segment).map(|of| of.owner);
    assert_eq!(
        [0, 1, 2].map(|n| history.editor(n)),
        [Some(1), Some(0), None]
    );
    assert_eq!(
        [0, 1, 2].map(|n| owner(&history, n)),
        [Some(0), Some(1), None]
    );
    // Segments 0 and 1, D0 and lock 0, of two products, are there, and two keys
    // are in the list.
    let answers = edits(1).map(|record| history.answer(&record));
    assert_eq!(
        answers,
        [Some(2), Some(1), Some(3), Some(1), Some(1), Some(2)]
    );
    history.feed(&call(b'E', 1, 0, 0), Some(0));
    for record in [edits(1), edits(2)].as_flattened() {
        assert_eq!(history.answer(record), None, "{record:?} by no live thread");
    }
    // User 0 stays the owner, with no thread and with a new one.
    assert_eq!([0, 1].map(|n| owner(&history, n)), [Some(0), Some(1)]);
    history.feed(&call(b'S', 0, 0, 0), Some(2));
    assert_eq!(history.editor(2), Some(0));
    history.feed(&call(b'N', 2, 0, 0), Some(2));
    assert_eq!(
        [0, 1, 2].map(|n| owner(&history, n)),
        [Some(0), Some(1), Some(0)]
    );
}

/// A thread's open calls, the newest last: what each found, and what it hands over.
fn open_calls(history: &History, thread: u16) -> Vec<(Vec<Key>, Vec<Key>)> {
    let thread = history.thread(thread).expect("it is live");
    let calls = thread.open_calls.iter();
    calls
        .map(|call| (call.found.clone(), call.list.clone()))
        .collect()
}

/// Segments 0 and 1 both have D0. It is taken from segment 0 and given again, and
/// then D1 is, which no open call found.
#[test]
fn an_open_call_hands_over_its_list_less_what_was_taken() {
    let key = |kind| move |number| Key { kind, number };
    let (s, d) = (key(Kind::Segment), key(Kind::Defined));
    let mut history = History::new();
    let feed = |history: &mut History, record: Record, answer: u32| {
        assert_eq!(history.answer(&record), Some(answer), "{record:?}");
        history.feed(&record, Some(answer as u16));
    };
    for (record, answer) in [
        (call(b'U', 0, 0, 0), 0),
        (call(b'S', 0, 0, 0), 0),
        (call(b'S', 0, 0, 0), 1),
        (call(b'N', 0, 0, 0), 0),
        (call(b'N', 0, 0, 0), 1),
        (lock(0, 0, 1, b"U0"), 0),
        (lock(0, 1, 1, b"U0"), 1),
        (call(b'K', 0, 0, 0), 0),
        (call(b'K', 0, 0, 0), 1),
        (call(b'G', 0, 0, 0), 2),
        (call(b'G', 0, 1, 0), 2),
        (call(b'C', 0, 0, 0), 0),
        (call(b'C', 0, 1, 0), 1),
        (call(b'C', 1, 0, 0), 0),
    ] {
        feed(&mut history, record, answer);
    }
    let with_key = |segment| vec![s(segment), d(0)];
    let kept = |segment| (with_key(segment), with_key(segment));
    let lost = |segment| (with_key(segment), vec![s(segment)]);
    assert_eq!(open_calls(&history, 0), [kept(0), kept(1)]);
    assert_eq!(open_calls(&history, 1), [kept(0)]);
    // A refused T changes nothing in it.
    history.feed(&call(b'T', 0, 0, 0), None);
    assert_eq!(open_calls(&history, 0), [kept(0), kept(1)]);
    feed(&mut history, call(b'T', 0, 0, 0), 1);
    assert_eq!(open_calls(&history, 0), [lost(0), kept(1)]);
    assert_eq!(open_calls(&history, 1), [lost(0)]);
    feed(&mut history, call(b'G', 0, 0, 0), 2);
    feed(&mut history, call(b'C', 1, 0, 0), 0);
    assert_eq!(open_calls(&history, 0), [lost(0), kept(1)]);
    assert_eq!(open_calls(&history, 1), [lost(0), kept(0)]);
    feed(&mut history, call(b'G', 0, 0, 1), 3);
    feed(&mut history, call(b'T', 0, 0, 1), 2);
    assert_eq!(open_calls(&history, 1), [lost(0), kept(0)]);
    let taken = |history: &History, thread| {
        let thread = history.thread(thread).expect("it is live");
        let calls = thread.open_calls.iter();
        Vec::from_iter(calls.map(|call| Vec::from_iter(call.taken.clone())))
    };
    assert_eq!(taken(&history, 0), [vec![d(0), d(1)], vec![]]);
    assert_eq!(taken(&history, 1), [vec![d(0), d(1)], vec![d(1)]]);
    // The key set is by what is handed over.
    let holds = |history: &History, thread| {
        let keys = history.key_set(thread).expect("it is live");
        keys.contains(&d(0))
    };
    assert!(holds(&history, 0) && holds(&history, 1));
    feed(&mut history, call(b'R', 0, 0, 0), 1);
    feed(&mut history, call(b'R', 1, 0, 0), 0);
    assert!(!holds(&history, 0) && !holds(&history, 1));
}

/// The history can tell a guard that is wrong: each of these answers is none
/// that it would give.
#[test]
fn the_history_knows_better() {
    let mut history = History::new();
    let accepted = [
        (call(b'U', 0, 0, 0), 0),
        (call(b'S', 0, 0, 0), 0),
        (call(b'N', 0, 0, 0), 0),
        (call(b'N', 0, 1, 0), 1),
        (lock(0, 0, 1, b"U0"), 0),
        (lock(0, 1, 4, b"S0"), 1),
        (lock(0, 1, 12, b"!S0"), 2),
    ];
    for (record, answer) in accepted {
        assert_eq!(history.answer(&record), Some(answer));
        history.feed(&record, Some(answer as u16));
    }
    let (calls, saves) = (call(b'C', 0, 0, 0), call(b'A', 0, 1, 4));
    assert_eq!(history.verdict(&calls), Some(Verdict::Granted(0)));
    assert_eq!(history.verdict(&saves), Some(Verdict::Denied(2)));
    assert_eq!(
        history.verdict(&call(b'A', 0, 1, 2)),
        Some(Verdict::NotGranted)
    );
    for unfit in [
        call(b'A', 0, 1, 1),
        call(b'A', 0, 0, 2),
        call(b'C', 0, 1, 0),
        call(b'C', 0, 0, 1),
        call(b'C', 1, 0, 0),
        call(b'C', 0, 2, 0),
    ] {
        assert_eq!(history.verdict(&unfit), None);
    }
    // A refused call changes nothing in it.
    history.feed(&calls, None);
    assert_eq!(history.verdict(&saves), Some(Verdict::Denied(2)));
    for _ in 0..MAX_FRAMES {
        history.feed(&calls, Some(0));
        assert_eq!(history.verdict(&saves), Some(Verdict::Granted(1)));
    }
    assert_eq!(history.verdict(&calls), Some(Verdict::Full));
    history.feed(&call(b'R', 0, 0, 0), Some(0));
    assert_eq!(history.verdict(&calls), Some(Verdict::Granted(0)));
    history.feed(&call(b'D', 0, 0, 0), Some(1));
    assert_eq!(history.verdict(&calls), Some(Verdict::NotGranted));
    assert_eq!(history.answer(&call(b'E', 0, 0, 0)), Some(15));
}
