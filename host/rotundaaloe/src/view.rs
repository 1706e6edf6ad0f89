//! What stands in a guard's state: its live threads, segments and standing
//! locks. Any numbers in the cells are some state, and are read as the guard
//! reads them: a count no further than its limit, a key list's first key as the
//! segment's own.

mod cells;

use crate::formula::{Key, Product};
use crate::guard::Guard;
use crate::numbers::{self, Kind, Operations, User};
use crate::raw::Cells;
use std::collections::BTreeSet;

/// A live thread.
#[derive(Clone, Debug, PartialEq, Eq)]
pub struct Thread {
    pub number: numbers::Thread,
    pub user: User,
    /// Its open calls, the newest first.
    pub frames: Vec<Frame>,
}

impl Thread {
    /// Its key set.
    pub fn keys(&self) -> BTreeSet<Key> {
        let own = [Key::User(self.user), Key::Thread(self.number)];
        let handed_over = self.frames.iter().flat_map(|frame| &frame.keys);
        own.into_iter().chain(handed_over.copied()).collect()
    }
}

/// An open call.
#[derive(Clone, Debug, PartialEq, Eq)]
pub struct Frame {
    pub segment: numbers::Segment,
    /// The keys that it hands over.
    pub keys: Vec<Key>,
}

/// A segment that is handed out.
#[derive(Clone, Debug, PartialEq, Eq)]
pub struct Segment {
    pub number: numbers::Segment,
    pub owner: User,
    pub kind: Kind,
    /// Its key list, its own S key first.
    pub keys: Vec<Key>,
    /// Its standing locks, by rising number.
    pub locks: Vec<Lock>,
}

/// A standing lock.
#[derive(Clone, Debug, PartialEq, Eq)]
pub struct Lock {
    pub number: numbers::Lock,
    pub operations: Operations,
    pub products: Vec<Product>,
}

impl Guard {
    /// The live threads, by rising number.
    pub fn threads(&self) -> Vec<Thread> {
        let places = self.cells().threads.iter();
        let live = places.filter(|place| cells::is_live(place));
        let mut threads: Vec<Thread> = live.map(cells::thread).collect();
        threads.sort_by_key(|thread| thread.number);
        threads
    }

    /// A live thread.
    pub fn thread(&self, number: numbers::Thread) -> Option<Thread> {
        cells::find(&self.cells().threads, number).map(cells::thread)
    }

    /// How many calls of a live thread are open.
    pub fn depth(&self, thread: numbers::Thread) -> Option<usize> {
        cells::find(&self.cells().threads, thread).map(cells::depth)
    }

    /// The segments that are handed out, by rising number.
    pub fn segments(&self) -> Vec<Segment> {
        let Cells {
            registry,
            segments,
            locks,
            ..
        } = self.cells();
        let tables = segments.iter().zip(locks);
        let numbered = (0..).map(numbers::Segment).zip(tables);
        let segment = |(number, (table, rows))| cells::segment(number, table, rows);
        let handed_out = numbered.take(cells::segments(registry));
        handed_out.map(segment).collect()
    }
}
