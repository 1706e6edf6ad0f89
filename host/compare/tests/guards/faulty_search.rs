//! The reference's key search with a fault.

use super::Found;
use reference::guard::{Guard, Refusal};
use reference::history::{History, OpenCall};
use reference::limits::{MAX_FRAMES, MAX_LIST_KEYS, MAX_SEGMENTS};
use reference::{Key, Kind};

/// What is wrong with a search.
#[derive(Clone, Copy, Debug)]
pub enum Fault {
    /// Finds the oldest open call that hands the key over.
    OldestFirst,
    /// Counts places from the oldest open call.
    CountsFromOldest,
    /// Counts only the open calls that hand the key over.
    CountsCallsWithKey,
    /// Looks at the newest open call alone.
    NewestAlone,
    /// Looks at one open call less than there can be.
    LeavesOutTheLast,
    /// Asks the list that the segment has now.
    ListOfNow,
    /// Asks the list that the segment had when the call was made.
    ListOfThen,
    /// Finds the thread's own U and R keys.
    FindsOwnKeys,
    /// Takes segments beyond the last for defined keys: S100 for D36.
    SegmentForDefined,
    /// Takes the last numbers of defined keys for segments: D65472 for S0.
    DefinedForSegment,
    /// Finds D65471, the last before those, in every list that isn't full.
    BlankForDefined,
    /// Asks the live thread with the next number.
    NextThread,
    /// Answers none for a thread that has ended.
    NoneForEnded,
    /// Answers none for a thread that was never started.
    NoneForNeverStarted,
    /// Refuses a key that was never handed out.
    RefusesTheKey,
}

pub const FAULTS: [Fault; 15] = [
    Fault::OldestFirst,
    Fault::CountsFromOldest,
    Fault::CountsCallsWithKey,
    Fault::NewestAlone,
    Fault::LeavesOutTheLast,
    Fault::ListOfNow,
    Fault::ListOfThen,
    Fault::FindsOwnKeys,
    Fault::SegmentForDefined,
    Fault::DefinedForSegment,
    Fault::BlankForDefined,
    Fault::NextThread,
    Fault::NoneForEnded,
    Fault::NoneForNeverStarted,
    Fault::RefusesTheKey,
];

/// Where defined keys would begin, were segments and they in one row of numbers.
const SEGMENTS: u16 = MAX_SEGMENTS as u16;
/// The defined key that would be the last number of that row.
const BLANK: u16 = u16::MAX - SEGMENTS;

pub struct Faulty<'a> {
    pub guard: &'a Guard,
    pub history: &'a History,
    pub fault: Fault,
}

impl Faulty<'_> {
    /// What the fault makes of the right answer.
    pub fn find_key(&self, thread: u16, key: Key) -> Found {
        let right = self.right(thread, key);
        match self.fault {
            Fault::OldestFirst => right.map(|_| self.oldest(thread, key)),
            Fault::CountsFromOldest => right.map(|place| self.counted_from_oldest(thread, place?)),
            Fault::CountsCallsWithKey => right.map(|place| place.and(Some(0))),
            Fault::NewestAlone => right.map(|place| place.filter(|place| *place == 0)),
            Fault::LeavesOutTheLast => {
                right.map(|place| place.filter(|place| place + 1 < MAX_FRAMES))
            }
            Fault::ListOfNow => right.map(|_| self.by_lists_of_now(thread, key)),
            Fault::ListOfThen => {
                right.map(|_| self.newest(thread, |call| call.found.contains(&key)))
            }
            Fault::FindsOwnKeys => right.map(|place| place.or(self.own(thread, key))),
            Fault::SegmentForDefined => self.right(thread, segment_for_defined(key)),
            Fault::DefinedForSegment => self.right(thread, defined_for_segment(key)),
            Fault::BlankForDefined => right.map(|place| place.or(self.blank(thread, key))),
            Fault::NextThread => right.and(self.right(self.next(thread), key)),
            Fault::NoneForEnded if self.was_started(thread) => right.or(Ok(None)),
            Fault::NoneForNeverStarted if !self.was_started(thread) => right.or(Ok(None)),
            Fault::NoneForEnded | Fault::NoneForNeverStarted => right,
            Fault::RefusesTheKey => right.and_then(|place| self.known(key).and(Ok(place))),
        }
    }

    fn right(&self, thread: u16, key: Key) -> Found {
        let found = self.guard.find_key(thread, key);
        found.map_err(Refusal::number)
    }

    /// The open calls, the newest last; none of a thread that isn't live.
    fn calls(&self, thread: u16) -> &[OpenCall] {
        let thread = self.history.thread(thread);
        thread.map_or(&[], |thread| &thread.open_calls)
    }

    /// The first open call of which this holds, from the newest.
    fn newest(&self, thread: u16, holds: impl Fn(&OpenCall) -> bool) -> Option<usize> {
        self.calls(thread).iter().rev().position(holds)
    }

    /// A place counted from the other end.
    fn counted_from_oldest(&self, thread: u16, place: usize) -> Option<usize> {
        self.calls(thread).len().checked_sub(place + 1)
    }

    fn oldest(&self, thread: u16, key: Key) -> Option<usize> {
        let mut calls = self.calls(thread).iter();
        let older = calls.position(|call| call.list.contains(&key))?;
        self.counted_from_oldest(thread, older)
    }

    fn by_lists_of_now(&self, thread: u16, key: Key) -> Option<usize> {
        self.newest(thread, |call| {
            let segment = self.history.segment(call.segment);
            segment.is_some_and(|segment| segment.list.contains(&key))
        })
    }

    fn own(&self, thread: u16, key: Key) -> Option<usize> {
        let is_own = match key.kind {
            Kind::User => self.history.thread(thread)?.user == key.number,
            Kind::Thread => thread == key.number,
            Kind::Segment | Kind::Defined => false,
        };
        is_own.then_some(0)
    }

    fn blank(&self, thread: u16, key: Key) -> Option<usize> {
        match key.kind {
            Kind::Defined if key.number == BLANK => {
                self.newest(thread, |call| call.list.len() < MAX_LIST_KEYS)
            }
            Kind::User | Kind::Thread | Kind::Segment | Kind::Defined => None,
        }
    }

    fn next(&self, thread: u16) -> u16 {
        let mut live = self.history.live_threads();
        live.find(|next| *next > thread).unwrap_or(thread)
    }

    fn was_started(&self, thread: u16) -> bool {
        u32::from(thread) < self.history.issued().threads
    }

    fn known(&self, key: Key) -> Result<(), u32> {
        match self.history.issued().contains(key) {
            true => Ok(()),
            false => Err(Refusal::NoKey.number()),
        }
    }
}

fn segment_for_defined(key: Key) -> Key {
    match key.kind {
        Kind::Segment if key.number >= SEGMENTS => Key {
            kind: Kind::Defined,
            number: key.number - SEGMENTS,
        },
        Kind::User | Kind::Thread | Kind::Segment | Kind::Defined => key,
    }
}

fn defined_for_segment(key: Key) -> Key {
    match key.kind {
        Kind::Defined if key.number > BLANK => Key {
            kind: Kind::Segment,
            number: key.number - BLANK - 1,
        },
        Kind::User | Kind::Thread | Kind::Segment | Kind::Defined => key,
    }
}
