//! Edits at random (document 02, P4): who edits, and whose the segment and the key
//! are, told by the history. By these alone an edit is refused by 2 and by 6, and
//! never otherwise.
//!
//! `cargo test --release -- --nocapture` also prints how often each sort came.

use reference::call::Call;
use reference::guard::{Guard, Refusal};
use reference::history::History;
use reference::journal::Record;
use reference::letter::Letter;
use std::collections::BTreeMap;
use testing::calls::{Caller, WORLDS, World, told};
use testing::random::Random;

const LISTS: usize = 400;
/// Each sort must come this often, of each letter that can have it.
const OFTEN: usize = 500;

/// What an edit comes to by its thread.
#[derive(Clone, Copy, Debug, PartialEq, Eq, PartialOrd, Ord)]
enum Sort {
    /// 2.
    NeverStarted,
    /// 2.
    Ended,
    /// 6: neither the segment nor, in G, the key is the user's.
    OfAnother,
    /// 6: the segment is the user's, the key isn't.
    KeyOfAnother,
    /// Accepted, by the thread that made the segment.
    SameThread,
    /// Accepted, by another thread of the user while the maker is live.
    OtherThread,
    /// Accepted, by another thread of the user after the maker has ended.
    MakerEnded,
    /// Accepted: what is made has no owner before.
    Made,
    /// Refused for what the thread has nothing to do with.
    Otherwise,
}

use Sort::*;

const OF_2: [Sort; 2] = [NeverStarted, Ended];
const OF_6: [Sort; 2] = [OfAnother, KeyOfAnother];

/// What must come of a letter's edits.
fn sorts(letter: Letter) -> &'static [Sort] {
    match letter {
        Letter::NewSegment | Letter::NewKey => &[NeverStarted, Ended, Made],
        Letter::GiveKey => &[
            NeverStarted,
            Ended,
            OfAnother,
            KeyOfAnother,
            SameThread,
            OtherThread,
            MakerEnded,
        ],
        _ => &[
            NeverStarted,
            Ended,
            OfAnother,
            SameThread,
            OtherThread,
            MakerEnded,
        ],
    }
}

type Tally = BTreeMap<(char, Sort), usize>;

/// A guard with its history, and what the history doesn't keep.
#[derive(Default)]
struct Office {
    guard: Guard,
    history: History,
    /// The user who made each key, and the thread by which each segment was made.
    key_makers: Vec<u16>,
    segment_makers: Vec<u16>,
}

impl Office {
    /// The segment that an edit is about, and the key that it gives.
    fn edited(&self, call: Call) -> (Option<u16>, Option<u16>) {
        match call {
            Call::GiveKey { segment, key, .. } => (Some(segment), Some(key)),
            Call::TakeKey { segment, .. } | Call::AddLock { segment, .. } => (Some(segment), None),
            Call::DropLock { lock, .. } => {
                let mut standing = self.history.standing();
                let found = standing.find(|(number, _)| *number == lock);
                (found.map(|(_, lock)| lock.segment), None)
            }
            _ => (None, None),
        }
    }

    /// Whether each thing that the edit names is there, but for the thread.
    fn names_what_is_there(&self, call: Call) -> bool {
        let has_segment = |number| self.history.segment(number).is_some();
        let has_key = |number: u16| usize::from(number) < self.key_makers.len();
        match call {
            Call::GiveKey { segment, key, .. } | Call::TakeKey { segment, key, .. } => {
                has_segment(segment) && has_key(key)
            }
            Call::AddLock { segment, .. } => has_segment(segment),
            Call::DropLock { .. } => self.edited(call).0.is_some(),
            _ => true,
        }
    }

    /// Why the thread can't make this edit, if it can't.
    fn objection(&self, call: Call, thread: u16) -> Option<Sort> {
        let Some(user) = self.history.editor(thread) else {
            let was_started = u32::from(thread) < self.history.issued().threads;
            return Some(if was_started { Ended } else { NeverStarted });
        };
        if !self.names_what_is_there(call) {
            return None;
        }
        let (segment, key) = self.edited(call);
        let owner = |number| self.history.segment(number).map(|of| of.owner);
        if segment.is_some_and(|segment| owner(segment) != Some(user)) {
            return Some(OfAnother);
        }
        let is_anothers = |key: u16| self.key_makers[usize::from(key)] != user;
        key.is_some_and(is_anothers).then_some(KeyOfAnother)
    }

    /// By whose thread the edit is made, should it be accepted.
    fn by(&self, call: Call, thread: u16) -> Sort {
        let Some(segment) = self.edited(call).0 else {
            return Made;
        };
        match self.segment_makers.get(usize::from(segment)) {
            Some(maker) if *maker == thread => SameThread,
            Some(maker) if self.history.thread(*maker).is_some() => OtherThread,
            _ => MakerEnded,
        }
    }

    /// Makes the call, and compares what comes of it with who edits.
    fn call(&mut self, record: &Record, tally: &mut Tally) -> Option<u16> {
        let edit = Call::of(record).filter(|call| call.letter().is_edit());
        let Some(call) = edit else {
            return told(&mut self.guard, &mut self.history, record).ok();
        };
        let thread = record.a;
        let objection = self.objection(call, thread);
        let by = self.by(call, thread);
        let user = self.history.editor(thread);
        let answer = told(&mut self.guard, &mut self.history, record);
        let refusal = answer.err();
        let is_2 = objection.is_some_and(|sort| OF_2.contains(&sort));
        assert_eq!(refusal == Some(Refusal::NoThread), is_2, "{record:?}");
        let is_6 = objection.is_some_and(|sort| OF_6.contains(&sort));
        assert_eq!(refusal == Some(Refusal::NotOwner), is_6, "{record:?}");
        assert_ne!(refusal, Some(Refusal::UnknownUser), "{record:?}");
        if answer.is_ok() {
            match call {
                Call::NewSegment { .. } => self.segment_makers.push(thread),
                Call::NewKey { .. } => self.key_makers.push(user.expect("it is live")),
                _ => {}
            }
        }
        let sort = match (objection, answer) {
            (Some(objection), _) => objection,
            (None, Ok(_)) => by,
            (None, Err(_)) => Otherwise,
        };
        *tally.entry((call.letter().char(), sort)).or_default() += 1;
        answer.ok()
    }
}

fn edits_of(world: &World, seed: u64, lists: usize) -> Tally {
    let mut random = Random::new(seed);
    let mut tally = Tally::new();
    for _ in 0..lists {
        let mut office = Office::default();
        let mut caller = Caller::new(&mut random, world);
        for _ in 0..caller.length() {
            let record = caller.next_call();
            if let Some(answer) = office.call(&record, &mut tally) {
                caller.learn(&record, answer);
            }
        }
    }
    println!("{}: {tally:?}", world.name);
    tally
}

#[test]
fn an_edit_is_judged_by_the_user_of_its_thread() {
    let mut total = Tally::new();
    for (world, seed) in WORLDS.iter().zip(80..) {
        let to_the_limit = world.name == "everything to its limit";
        let lists = if to_the_limit { LISTS / 20 } else { LISTS };
        for (sort, count) in edits_of(world, seed, lists) {
            *total.entry(sort).or_default() += count;
        }
    }
    println!("all: {total:?}");
    for letter in Letter::ALL.into_iter().filter(|letter| letter.is_edit()) {
        for sort in sorts(letter) {
            let count = total.get(&(letter.char(), *sort)).copied().unwrap_or(0);
            assert!(count >= OFTEN, "{letter:?} is {sort:?} {count} times");
        }
    }
}
