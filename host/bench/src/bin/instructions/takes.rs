//! The scenes of T, which takes a key out of a segment's list and out of every open
//! call of the segment, in every thread: by its letter, with two open calls and with
//! as many as there can be.

use crate::scenes::{Counted, Scene, before_the_twelve};
use crate::searches;
use bench::stage::Stage;
use compare::key_number;
use reference::journal::Record;
use reference::letter::Letter;
use reference::limits::{MAX_FRAMES, MAX_LIST_KEYS, MAX_LIVE_THREADS};
use reference::operations::EXECUTE;
use reference::{Key, Kind};
use rotundaaloe::raw::{self, Threads};
use testing::calls::{call, lock};

/// The state that T is made in, and which open calls lose the key.
#[derive(Clone, Copy)]
pub enum Take {
    /// That of the twelve: one of the two open calls.
    Small,
    /// Every thread has called each segment once, and every open call hands the
    /// key over: one in each thread.
    Fullest,
    /// The same calls, and the key was given after them: none.
    GivenLater,
    /// Every thread has called only the one segment, and hands the key over each
    /// time: all.
    OneSegment,
}

const THREADS: u16 = MAX_LIVE_THREADS as u16;
/// The code segments, as many as a thread can have open calls. Each has one lock,
/// which opens for the threads' user.
const CODE: u16 = MAX_FRAMES as u16;
/// The thread by which the user edits.
const EDITOR: u16 = 0;
/// The segment that the key is taken from. Every thread's newest open call is of it.
const SEGMENT: u16 = CODE - 1;
/// The key that is taken. With the keys below it and the segment's own a list is
/// full.
const KEY: u16 = MAX_LIST_KEYS as u16 - 2;

/// Every T that is counted.
pub const TAKES: [Take; 4] = [
    Take::Small,
    Take::Fullest,
    Take::GivenLater,
    Take::OneSegment,
];

impl Take {
    /// The name that its counts and its limit have.
    pub fn name(self) -> &'static str {
        match self {
            Take::Small => "T on a small state",
            Take::Fullest => "T on the fullest state",
            Take::GivenLater => "T on the fullest state, the key given after the calls",
            Take::OneSegment => "T where every open call is one of the segment",
        }
    }

    /// How many open calls there are.
    pub fn open_calls(self) -> usize {
        let before = self.before().into_iter();
        before.filter(|record| record.letter == b'C').count()
    }

    /// How many of them lose the key.
    pub fn losing(self) -> usize {
        match self {
            Take::Small => 1,
            Take::Fullest => MAX_LIVE_THREADS,
            Take::GivenLater => 0,
            Take::OneSegment => MAX_LIVE_THREADS * MAX_FRAMES,
        }
    }

    /// The calls that lead to the state. No thread returns from one.
    fn before(self) -> Vec<Record> {
        let each_once: Vec<u16> = (0..CODE).collect();
        let one_segment = [SEGMENT; MAX_FRAMES];
        match self {
            Take::Small => before_the_twelve(),
            Take::Fullest => [opening(), given(0..CODE), entered(&each_once)].concat(),
            Take::GivenLater => [opening(), entered(&each_once), given([SEGMENT])].concat(),
            Take::OneSegment => [opening(), given([SEGMENT]), entered(&one_segment)].concat(),
        }
    }

    fn record(self) -> Record {
        match self {
            Take::Small => call(Letter::TakeKey, 0, 0, 0),
            _ => call(Letter::TakeKey, EDITOR, SEGMENT, KEY),
        }
    }

    pub fn scene(self) -> Scene {
        Scene {
            name: self.name().to_string(),
            before: self.before(),
            counted: Counted::Entry(self.record()),
            expected: match self {
                Take::Small => 1,
                _ => MAX_LIST_KEYS as u16 - 1,
            },
        }
    }

    /// The place, 0 for the newest, of each thread's newest open call that hands the
    /// key over, before T and after it.
    fn places(self) -> [Option<usize>; 2] {
        match self {
            Take::Small => [Some(1), None],
            Take::Fullest => [Some(0), Some(1)],
            Take::GivenLater => [None, None],
            Take::OneSegment => [Some(0), None],
        }
    }

    fn threads(self) -> u16 {
        match self {
            Take::Small => 1,
            _ => THREADS,
        }
    }

    /// Both guards find the key at this place, of every thread.
    fn assert_found(self, stage: &Stage, place: Option<usize>) {
        let key = Key {
            kind: Kind::Defined,
            number: self.record().c,
        };
        for thread in 0..self.threads() {
            let name = format!("{}, thread {thread}", self.name());
            let proved = raw::find_key(stage.proved.cells(), thread, key_number(&key));
            assert_eq!(proved, searches::coded(Ok(place)), "{name}");
            let reference = stage.reference.find_key(thread, key);
            assert_eq!(reference, Ok(place), "{name}");
        }
    }

    /// The open calls that should lose the key do, on both guards. Nothing is counted.
    pub fn tried(self) {
        let mut stage = Stage::after(&self.before());
        let threads = stage.proved.cells().threads;
        let [before, after] = self.places();
        self.assert_found(&stage, before);
        stage.accept(&[self.record()]);
        self.assert_found(&stage, after);
        let changed = changed_rows(&threads, &stage.proved.cells().threads);
        assert_eq!(changed, self.losing(), "{}", self.name());
    }
}

/// How many rows of threads, of which an open call is one, differ.
fn changed_rows(before: &Threads, after: &Threads) -> usize {
    let rows = before.as_flattened().iter().zip(after.as_flattened());
    rows.filter(|(before, after)| before != after).count()
}

/// A user with as many threads as can be live, the keys, and the code segments, each
/// with room for one more key in its list.
fn opening() -> Vec<Record> {
    let mut calls = vec![call(b'U', 0, 0, 0)];
    calls.extend(vec![call(b'S', 0, 0, 0); MAX_LIVE_THREADS]);
    calls.extend(vec![call(b'K', EDITOR, 0, 0); usize::from(KEY) + 1]);
    for segment in 0..CODE {
        calls.push(call(b'N', EDITOR, 0, 0));
        calls.push(lock(EDITOR, segment, EXECUTE, b"U0"));
        calls.extend((0..KEY).map(|key| call(b'G', EDITOR, segment, key)));
    }
    calls
}

/// The key is given to each of these segments.
fn given(segments: impl IntoIterator<Item = u16>) -> Vec<Record> {
    let segments = segments.into_iter();
    segments
        .map(|segment| call(b'G', EDITOR, segment, KEY))
        .collect()
}

/// Every thread calls these segments, one after the other.
fn entered(segments: &[u16]) -> Vec<Record> {
    let calls = |thread| {
        let segments = segments.iter();
        segments.map(move |segment| call(b'C', thread, *segment, 0))
    };
    (0..THREADS).flat_map(calls).collect()
}
