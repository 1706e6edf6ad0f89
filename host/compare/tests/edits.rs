//! Who edits (document 02, P4), after lists of calls: the user for whom the thread
//! was started that the edit names, and nobody where it isn't live. Who started
//! which thread, and what each user made, is written down beside both guards.
//!
//! Faulty guards, each with another editor or another refusal somewhere, are found
//! by the same answers. With `-- --nocapture` it also prints how often edits came to
//! what.

#[path = "guards/faulty_editor.rs"]
mod faulty_editor;

use compare::guard::{Guard, coded, outcome};
use faulty_editor::{FAULTS, Faulty};
use reference::call::Call;
use reference::guard::Answer;
use reference::journal::Record;
use std::collections::{BTreeMap, BTreeSet};
use testing::calls::{Caller, WORLDS, World};
use testing::random::Random;

/// Lists of each kind.
const LISTS: usize = 400;
/// Fewer are enough for the faulty guards.
const FAULTY_LISTS: usize = 60;

/// A segment, a key or a lock's segment: whose it is, and by which thread.
#[derive(Clone, Copy)]
struct Made {
    user: u16,
    thread: u16,
}

/// What S, E, N, K and L said, in order.
#[derive(Default)]
struct Book {
    /// The user of each live thread.
    live: BTreeMap<u16, u16>,
    ended: BTreeSet<u16>,
    segments: Vec<Made>,
    keys: Vec<Made>,
    /// The segment of each lock.
    locked: BTreeMap<u16, u16>,
}

/// An edit: its thread, and the segment and the key that its user must have made.
struct Edit {
    thread: u16,
    segment: Option<u16>,
    key: Option<u16>,
}

impl Book {
    /// The edit that a call is. A lock stands for its segment.
    fn edit(&self, call: Call) -> Option<Edit> {
        let (thread, segment, key) = match call {
            Call::NewSegment { thread, .. } | Call::NewKey { thread } => (thread, None, None),
            Call::GiveKey {
                thread,
                segment,
                key,
            } => (thread, Some(segment), Some(key)),
            Call::TakeKey {
                thread, segment, ..
            } => (thread, Some(segment), None),
            Call::AddLock {
                thread, segment, ..
            } => (thread, Some(segment), None),
            Call::DropLock { thread, lock } => (thread, self.locked.get(&lock).copied(), None),
            Call::NewUser | Call::StartThread { .. } | Call::EndThread { .. } => return None,
            Call::CallSegment { .. } | Call::ReturnCall { .. } => return None,
            Call::Access { .. } => return None,
        };
        Some(Edit {
            thread,
            segment,
            key,
        })
    }

    fn segment(&self, edit: &Edit) -> Option<Made> {
        self.segments.get(usize::from(edit.segment?)).copied()
    }

    fn key(&self, edit: &Edit) -> Option<Made> {
        self.keys.get(usize::from(edit.key?)).copied()
    }

    fn enter(&mut self, call: Call, answer: u16) {
        match call {
            Call::StartThread { user } => {
                self.live.insert(answer, user);
            }
            Call::EndThread { thread } => {
                self.live.remove(&thread);
                self.ended.insert(thread);
            }
            Call::NewSegment { thread, .. } => self.segments.push(self.made(thread)),
            Call::NewKey { thread } => self.keys.push(self.made(thread)),
            Call::AddLock { segment, .. } => {
                self.locked.insert(answer, segment);
            }
            _ => (),
        }
    }

    fn made(&self, thread: u16) -> Made {
        let user = self.live[&thread];
        Made { user, thread }
    }
}

/// What the edits came to.
#[derive(Debug, Default)]
struct Tally {
    /// Refused by 2, where the thread was never started, and where it has ended.
    never_started: usize,
    ended: usize,
    /// Accepted, by the thread that made the segment, by another of the user, and
    /// where the first has ended.
    by_maker: usize,
    by_another: usize,
    after_the_end: usize,
    /// Refused by 6, and among these by a thread whose number is the owner's.
    not_owner: usize,
    like_the_owner: usize,
}

impl Tally {
    fn add(&mut self, book: &Book, edit: &Edit, outcome: u32) {
        let made = book.segment(edit);
        let made_by = |thread| made.is_some_and(|made| made.thread == thread);
        match outcome {
            2 if book.ended.contains(&edit.thread) => self.ended += 1,
            2 => self.never_started += 1,
            0 if made.is_none() => (),
            0 if made_by(edit.thread) => self.by_maker += 1,
            0 => {
                self.by_another += 1;
                let ended = made.is_some_and(|made| book.ended.contains(&made.thread));
                self.after_the_end += usize::from(ended);
            }
            6 => {
                self.not_owner += 1;
                let is_like = made.is_some_and(|made| made.user == edit.thread);
                self.like_the_owner += usize::from(is_like);
            }
            _ => (),
        }
    }

    fn assert_complete(&self) {
        let Tally {
            never_started,
            ended,
            by_maker,
            by_another,
            after_the_end,
            not_owner,
            like_the_owner,
        } = *self;
        for count in [never_started, ended, by_maker, by_another] {
            assert!(count > LISTS, "{self:?}");
        }
        for count in [after_the_end, not_owner, like_the_owner] {
            assert!(count > LISTS / 4, "{self:?}");
        }
    }
}

/// An edit of a live thread is accepted only if its user made what it changes, and
/// refused by 2 exactly if the thread isn't live.
fn judge(book: &Book, edit: &Edit, outcome: u32, record: &Record) {
    let user = book.live.get(&edit.thread).copied();
    assert_eq!(outcome == 2, user.is_none(), "{record:?}");
    assert_ne!(outcome, 1, "{record:?}");
    let is_anothers = |made: Option<Made>| made.is_some_and(|made| Some(made.user) != user);
    let not_owner = is_anothers(book.segment(edit)) || is_anothers(book.key(edit));
    match outcome {
        0 => assert!(!not_owner, "{record:?}"),
        6 => assert!(not_owner, "{record:?}"),
        _ => (),
    }
}

/// A list at random, with the answers that the reference gives.
fn drawn(random: &mut Random, world: &World) -> Vec<(Record, Answer)> {
    let mut reference = reference::guard::Guard::new();
    let mut caller = Caller::new(random, world);
    let mut list = Vec::new();
    for _ in 0..caller.length() {
        let record = caller.next_call();
        let answer = reference.call(record.letter, record.a, record.b, record.c, &record.text);
        if let Ok(answer) = answer {
            caller.learn(&record, answer);
        }
        list.push((record, answer));
    }
    list
}

/// Lists of every kind, so many of each but for the longest.
fn try_lists(lists: usize, mut attempt: impl FnMut(&[(Record, Answer)])) {
    for (world, seed) in WORLDS.iter().zip(120..) {
        let mut random = Random::new(seed);
        let to_the_limit = world.name == "everything to its limit";
        for _ in 0..if to_the_limit { lists / 20 } else { lists } {
            attempt(&drawn(&mut random, world));
        }
    }
}

#[test]
fn the_editor_is_the_threads_user() {
    let mut tally = Tally::default();
    try_lists(LISTS, |list| {
        let (mut guard, mut book) = (Guard::new(), Book::default());
        for (record, answer) in list {
            let given = guard.call(record.letter, record.a, record.b, record.c, &record.text);
            assert_eq!(given, coded(*answer), "{record:?}");
            let Some(call) = Call::of(record) else {
                continue;
            };
            if let Some(edit) = book.edit(call) {
                judge(&book, &edit, outcome(given), record);
                tally.add(&book, &edit, outcome(given));
            }
            if let Ok(answer) = answer {
                book.enter(call, *answer);
            }
        }
        let makers = book.keys.iter().map(|made| made.user);
        assert!(makers.eq(guard.cells().makers[..book.keys.len()].iter().copied()));
        let segments = guard.cells().segments.iter().map(|table| table[0][0]);
        let owners = book.segments.iter().map(|made| made.user);
        assert!(owners.eq(segments.take(book.segments.len())));
    });
    println!("{tally:?}");
    tally.assert_complete();
}

#[test]
fn a_faulty_editor_is_found() {
    let (mut found, mut lists) = (FAULTS.map(|_| 0), 0);
    try_lists(FAULTY_LISTS, |list| {
        for (fault, found) in FAULTS.into_iter().zip(&mut found) {
            let mut guard = Faulty::new(fault);
            let mut calls = list.iter();
            let differs = calls.any(|(record, answer)| guard.call(record) != coded(*answer));
            *found += usize::from(differs);
        }
        lists += 1;
    });
    for (fault, found) in FAULTS.into_iter().zip(found) {
        println!("{fault:?}: in {found} of {lists} lists");
        assert!(found > FAULTY_LISTS, "{fault:?}");
    }
}
