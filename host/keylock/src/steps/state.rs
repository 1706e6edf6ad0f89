//! What stands before a call: the history, and what it doesn't keep.

use super::kept::{Kept, Taken};
use crate::names::Thing;
use reference::history::{self, History, OpenCall};
use rotundaaloe::formula::{Issued, Key};
use rotundaaloe::{Call, Defined, Lock, Record, Segment, Thread, User};

#[derive(Default)]
pub struct State {
    pub history: History,
    pub kept: Kept,
}

impl State {
    /// Takes in an accepted call, which is this step, with what is lost by it.
    pub fn take_in(&mut self, step: usize, record: &Record, answer: u16, losses: &[Loss]) {
        let issued = self.issued();
        for Loss { thread, older, key } in losses {
            let taken = Taken { key: *key, step };
            self.kept.withdraw(*thread, *older, taken);
        }
        self.kept.take_in(record, answer, issued);
        self.history.feed(&for_history(record), Some(answer));
    }

    /// A thing by its name, if it has one: `the rate loader (segment 0)`.
    pub fn said(&self, thing: impl Into<Thing>) -> String {
        self.kept.names.said(thing)
    }

    pub fn issued(&self) -> Issued {
        let issued = self.history.issued();
        Issued {
            users: issued.users,
            threads: issued.threads,
            segments: issued.segments,
            defined: issued.defined,
        }
    }

    /// A live thread's open calls, the newest last.
    pub fn open_calls(&self, thread: Thread) -> &[OpenCall] {
        let thread = self.history.thread(thread.0);
        thread.map_or(&[], |thread| &thread.open_calls)
    }

    /// Which open calls lose a key by a T that is accepted: every one of its segment
    /// that hands the key over, by rising thread, the oldest first. None by another
    /// call.
    pub fn losses(&self, record: &Record) -> Vec<Loss> {
        let Some(Call::TakeKey { segment, key, .. }) = Call::of(record) else {
            return Vec::new();
        };
        let key = Key::Defined(key);
        let threads = self.history.live_threads().map(Thread);
        let losses = threads.flat_map(|thread| {
            let calls = self.open_calls(thread).iter().enumerate();
            let losing = calls.filter(move |(_, call)| {
                call.segment == segment.0 && call.list.contains(&for_reference(key))
            });
            losing.map(move |(older, _)| Loss { thread, older, key })
        });
        losses.collect()
    }

    /// Whether a key was taken from some open call of the segment.
    pub fn was_taken_from_calls(&self, segment: Segment, key: Key) -> bool {
        let mut threads = self.history.live_threads().map(Thread);
        threads.any(|thread| {
            let mut taken = self.taken(thread, key);
            taken.any(|(from, _)| from == segment)
        })
    }

    /// The thread's open calls that a key was taken from: their segments and the
    /// steps that took it, the oldest call first.
    pub fn taken(&self, thread: Thread, key: Key) -> impl Iterator<Item = (Segment, usize)> {
        let calls = self.open_calls(thread).iter().enumerate();
        calls.filter_map(move |(older, call)| {
            let mut taken = self.kept.taken_from(thread, older).iter();
            let taken = taken.find(|taken| taken.key == key)?;
            Some((Segment(call.segment), taken.step))
        })
    }

    /// A live thread's key set, in order.
    pub fn key_set(&self, thread: Thread) -> Vec<Key> {
        let keys = self.history.key_set(thread.0).unwrap_or_default();
        keys.into_iter().map(key).collect()
    }

    /// A segment's key list.
    pub fn list(&self, segment: Segment) -> Vec<Key> {
        let segment = self.history.segment(segment.0);
        segment.map_or(Vec::new(), |segment| keys(&segment.list))
    }

    pub fn is_sheet(&self, segment: Segment) -> bool {
        let segment = self.history.segment(segment.0);
        segment.is_some_and(|segment| segment.sheet)
    }

    /// Who edits by a thread: its user, if it is live.
    pub fn editor(&self, thread: Thread) -> Option<User> {
        self.history.editor(thread.0).map(User)
    }

    pub fn owner(&self, segment: Segment) -> Option<User> {
        let segment = self.history.segment(segment.0)?;
        Some(User(segment.owner))
    }

    /// A lock that stands.
    pub fn standing(&self, lock: Lock) -> Option<&history::Lock> {
        let mut standing = self.history.standing();
        let found = standing.find(|(number, _)| *number == lock.0);
        found.map(|(_, lock)| lock)
    }
}

/// An open call that loses a key.
pub struct Loss {
    pub thread: Thread,
    /// How many of the thread's open calls are older.
    pub older: usize,
    pub key: Key,
}

pub fn key(key: reference::Key) -> Key {
    let number = key.number;
    match key.kind {
        reference::Kind::User => Key::User(User(number)),
        reference::Kind::Thread => Key::Thread(Thread(number)),
        reference::Kind::Segment => Key::Segment(Segment(number)),
        reference::Kind::Defined => Key::Defined(Defined(number)),
    }
}

pub fn for_reference(key: Key) -> reference::Key {
    let (kind, number) = match key {
        Key::User(User(number)) => (reference::Kind::User, number),
        Key::Thread(Thread(number)) => (reference::Kind::Thread, number),
        Key::Segment(Segment(number)) => (reference::Kind::Segment, number),
        Key::Defined(Defined(number)) => (reference::Kind::Defined, number),
    };
    reference::Key { kind, number }
}

pub fn keys(list: &[reference::Key]) -> Vec<Key> {
    list.iter().copied().map(key).collect()
}

pub fn for_history(record: &Record) -> reference::journal::Record {
    reference::journal::Record {
        letter: record.letter,
        a: record.a,
        b: record.b,
        c: record.c,
        text: record.text.to_vec(),
    }
}
