//! The history (document 01, 'The history'): what stands after a list of calls,
//! read from the calls and their answers alone, and what it makes of a next
//! call. It sees no guard. A lock is its formula here, asked of a whole key set;
//! no products are made to judge whether it opens. An open call is the list that it
//! found, with what was taken since written beside it.

mod key_search;
mod listing;
mod open_call;
mod tightest;

pub use open_call::OpenCall;

use crate::call::Call;
use crate::formula::{self, Formula};
use crate::journal::Record;
use crate::letter::Letter;
use crate::limits::MAX_FRAMES;
use crate::operations::{DENY, EXECUTE, READ, WRITE};
use crate::{Issued, Key, Kind};
use std::collections::{BTreeMap, BTreeSet};

/// A live thread.
pub struct Thread {
    pub user: u16,
    /// The open calls, the newest last.
    pub open_calls: Vec<OpenCall>,
}

/// A segment that is handed out.
pub struct Segment {
    pub owner: u16,
    pub sheet: bool,
    /// Its own S key, then the D keys in the order of giving.
    pub list: Vec<Key>,
}

/// A standing lock.
pub struct Lock {
    pub segment: u16,
    pub operations: u16,
    pub formula: Formula,
}

impl Lock {
    /// Whether it stands for an operation on a segment.
    pub fn stands_for(&self, segment: u16, operation: u16) -> bool {
        self.segment == segment && self.operations & operation == operation
    }

    pub fn denies(&self) -> bool {
        self.operations & DENY == DENY
    }
}

/// What a C or an A asks for.
struct Operation {
    thread: u16,
    segment: u16,
    number: u16,
}

/// What the history says of a live thread's fitting C or A.
#[derive(Clone, Copy, Debug, PartialEq, Eq)]
pub enum Verdict {
    /// By the tightest grant lock that opens.
    Granted(u16),
    /// By the lowest deny lock that opens.
    Denied(u16),
    NotGranted,
    /// A grant lock and no deny lock opens, but the most calls are open.
    Full,
}

#[derive(Default)]
pub struct History {
    /// How many calls of each letter were accepted.
    accepted: BTreeMap<Letter, u32>,
    live: BTreeMap<u16, Thread>,
    segments: BTreeMap<u16, Segment>,
    standing: BTreeMap<u16, Lock>,
}

impl History {
    pub fn new() -> History {
        History::default()
    }

    /// Takes in a call with its answer, or with `None` if it was refused.
    pub fn feed(&mut self, record: &Record, answer: Option<u16>) {
        let (Some(call), Some(answer)) = (Call::of(record), answer) else {
            return;
        };
        self.accept(call, answer);
        *self.accepted.entry(call.letter()).or_default() += 1;
    }

    fn accept(&mut self, call: Call, answer: u16) {
        match call {
            Call::NewUser | Call::NewKey { .. } | Call::Access { .. } => {}
            Call::StartThread { user } => self.start(answer, user),
            Call::EndThread { thread } => {
                self.live.remove(&thread);
            }
            Call::NewSegment { thread, kind } => self.hand_out(answer, thread, kind),
            Call::GiveKey { segment, key, .. } => self.segment_mut(segment).list.push(defined(key)),
            Call::TakeKey { segment, key, .. } => self.take(segment, defined(key)),
            Call::AddLock {
                segment,
                operations,
                text,
                ..
            } => self.stand(answer, segment, operations, text),
            Call::DropLock { lock, .. } => {
                self.standing.remove(&lock);
            }
            Call::CallSegment { thread, segment } => {
                let call = OpenCall::new(segment, &self.segment_mut(segment).list);
                self.thread_mut(thread).open_calls.push(call);
            }
            Call::ReturnCall { thread } => {
                self.thread_mut(thread).open_calls.pop();
            }
        }
    }

    fn start(&mut self, thread: u16, user: u16) {
        let open_calls = Vec::new();
        self.live.insert(thread, Thread { user, open_calls });
    }

    fn hand_out(&mut self, number: u16, thread: u16, kind: u16) {
        let owner = self.editor(thread);
        let own = Key {
            kind: Kind::Segment,
            number,
        };
        let segment = Segment {
            owner: owner.expect("an accepted edit names a live thread"),
            sheet: kind == 1,
            list: vec![own],
        };
        self.segments.insert(number, segment);
    }

    /// Strikes the key from the segment's list, and writes beside its open calls that
    /// it was taken.
    fn take(&mut self, segment: u16, key: Key) {
        let list = &mut self.segment_mut(segment).list;
        list.retain(|given| *given != key);
        for thread in self.live.values_mut() {
            let calls = thread.open_calls.iter_mut();
            let of_segment = calls.filter(|call| call.segment == segment);
            of_segment.for_each(|call| call.note_taken(key));
        }
    }

    fn stand(&mut self, lock: u16, segment: u16, operations: u16, text: &[u8]) {
        let formula = formula::parse(text, &self.issued());
        let standing = Lock {
            segment,
            operations,
            formula: formula.expect("an accepted text is in the grammar"),
        };
        self.standing.insert(lock, standing);
    }

    /// The answer of a call, if it is accepted now. `None` where a field
    /// names what isn't there, so that it can't be.
    pub fn answer(&self, record: &Record) -> Option<u32> {
        let call = Call::of(record)?;
        if call.letter().is_edit() {
            self.editor(record.a)?;
        }
        let keys = |segment| Some(self.segments.get(&segment)?.list.len() as u32);
        let open_calls = |thread| Some(&self.live.get(&thread)?.open_calls);
        match call {
            Call::NewUser
            | Call::StartThread { .. }
            | Call::NewSegment { .. }
            | Call::NewKey { .. }
            | Call::AddLock { .. } => Some(self.count(call.letter())),
            Call::EndThread { thread } => Some(open_calls(thread)?.len() as u32),
            Call::GiveKey { segment, .. } => Some(keys(segment)? + 1),
            Call::TakeKey { segment, .. } => Some(keys(segment)? - 1),
            Call::DropLock { lock, .. } => {
                let sum = self.standing.get(&lock)?.formula.sum_of_products();
                Some(sum.expect("an accepted text fits").len() as u32)
            }
            Call::ReturnCall { thread } => Some(u32::from(open_calls(thread)?.last()?.segment)),
            Call::CallSegment { .. } | Call::Access { .. } => match self.verdict(record)? {
                Verdict::Granted(lock) => Some(u32::from(lock)),
                Verdict::Denied(_) | Verdict::NotGranted | Verdict::Full => None,
            },
        }
    }

    /// The number of the operation that a call asks for; `None` where the locks
    /// don't decide it.
    pub fn operation(&self, record: &Record) -> Option<u16> {
        Some(self.asked(record)?.number)
    }

    /// What a live thread's fitting C or A asks for; `None` for other calls.
    fn asked(&self, record: &Record) -> Option<Operation> {
        let (thread, segment, number, sheet) = match Call::of(record)? {
            Call::CallSegment { thread, segment } => (thread, segment, EXECUTE, false),
            Call::Access {
                thread,
                segment,
                operation: number @ (READ | WRITE),
            } => (thread, segment, number, true),
            Call::Access { .. } => return None,
            Call::NewUser | Call::NewSegment { .. } | Call::NewKey { .. } => return None,
            Call::StartThread { .. } | Call::EndThread { .. } => return None,
            Call::GiveKey { .. } | Call::TakeKey { .. } => return None,
            Call::AddLock { .. } | Call::DropLock { .. } => return None,
            Call::ReturnCall { .. } => return None,
        };
        let fits = self.live.contains_key(&thread) && self.segments.get(&segment)?.sheet == sheet;
        fits.then_some(Operation {
            thread,
            segment,
            number,
        })
    }

    /// The verdict on a live thread's fitting C or A; `None` for other calls.
    pub fn verdict(&self, record: &Record) -> Option<Verdict> {
        let Operation {
            thread,
            segment,
            number,
        } = self.asked(record)?;
        let keys = self.key_set(thread)?;
        let full = number == EXECUTE && self.live[&thread].open_calls.len() >= MAX_FRAMES;
        Some(match self.judgement(&keys, segment, number) {
            Verdict::Granted(_) if full => Verdict::Full,
            verdict => verdict,
        })
    }

    /// What the standing locks make of an operation with these keys, however many
    /// calls are open.
    pub fn judgement(&self, keys: &BTreeSet<Key>, segment: u16, operation: u16) -> Verdict {
        let standing = self.standing();
        let opening = standing
            .filter(|(_, lock)| lock.stands_for(segment, operation) && lock.formula.holds(keys));
        let (deny, grant): (Vec<_>, Vec<_>) = opening.partition(|(_, lock)| lock.denies());
        // Locks come by rising number.
        match (deny.first(), tightest::tightest(&grant, keys)) {
            (Some((lock, _)), _) => Verdict::Denied(*lock),
            (None, Some(lock)) => Verdict::Granted(lock),
            (None, None) => Verdict::NotGranted,
        }
    }

    /// Who edits by a thread: its user. `None` where it isn't live.
    pub fn editor(&self, thread: u16) -> Option<u16> {
        self.thread(thread).map(|thread| thread.user)
    }

    /// The key set of a live thread.
    pub fn key_set(&self, thread: u16) -> Option<BTreeSet<Key>> {
        Some(key_set(thread, self.live.get(&thread)?))
    }

    /// A live thread.
    pub fn thread(&self, number: u16) -> Option<&Thread> {
        self.live.get(&number)
    }

    /// A segment that is handed out.
    pub fn segment(&self, number: u16) -> Option<&Segment> {
        self.segments.get(&number)
    }

    /// The standing locks with their numbers, by rising number.
    pub fn standing(&self) -> impl Iterator<Item = (u16, &Lock)> {
        self.standing.iter().map(|(number, lock)| (*number, lock))
    }

    /// The live threads' numbers.
    pub fn live_threads(&self) -> impl Iterator<Item = u16> {
        self.live.keys().copied()
    }

    /// The segments that are handed out.
    pub fn segments(&self) -> impl Iterator<Item = u16> {
        self.segments.keys().copied()
    }

    /// How many keys of each kind are handed out.
    pub fn issued(&self) -> Issued {
        Issued {
            users: self.count(Letter::NewUser),
            threads: self.count(Letter::StartThread),
            segments: self.count(Letter::NewSegment),
            defined: self.count(Letter::NewKey),
        }
    }

    /// How many calls of a letter were accepted.
    fn count(&self, letter: Letter) -> u32 {
        self.accepted.get(&letter).copied().unwrap_or(0)
    }

    fn thread_mut(&mut self, number: u16) -> &mut Thread {
        let thread = self.live.get_mut(&number);
        thread.expect("an accepted call names a live thread")
    }

    fn segment_mut(&mut self, number: u16) -> &mut Segment {
        let segment = self.segments.get_mut(&number);
        segment.expect("an accepted call names a segment that is handed out")
    }
}

/// A thread's user's key, its own, and what its open calls hand over.
fn key_set(number: u16, thread: &Thread) -> BTreeSet<Key> {
    let key = |kind, number| Key { kind, number };
    let mut keys = BTreeSet::from([key(Kind::User, thread.user), key(Kind::Thread, number)]);
    keys.extend(thread.open_calls.iter().flat_map(|call| &call.list));
    keys
}

fn defined(number: u16) -> Key {
    let kind = Kind::Defined;
    Key { kind, number }
}
