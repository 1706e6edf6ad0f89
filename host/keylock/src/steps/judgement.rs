//! How the locks decide a C or an A: each standing lock for the operation, and
//! what the thread's keys do to each of its products.

use super::choice;
use super::product::{Product, Tester, wanted};
use super::state::{State, for_history};
use super::view::{self, Lock};
use crate::figures::spelt;
use crate::words::capital;
use rotundaaloe::formula::Key;
use rotundaaloe::{Call, Guard, Record, Refusal, Segment, Thread};
use std::cmp::Reverse;

/// A C or an A of a live thread that its segment takes.
#[derive(Clone, Debug)]
pub struct Judgement {
    pub thread: Thread,
    pub segment: Segment,
    /// The two by their names.
    pub thread_said: String,
    pub segment_said: String,
    /// 1 execute, 2 read or 4 write.
    pub operation: u16,
    /// The thread's key set that was judged: the one before the call.
    pub keys: Vec<Key>,
    /// The standing locks for the operation, by rising number.
    pub locks: Vec<Tried>,
    /// The lock in the answer: the one that granted or denied. None before it is
    /// answered.
    pub decided: Option<u16>,
}

/// A lock that the keys were tried on.
#[derive(Clone, Debug)]
pub struct Tried {
    pub lock: Lock,
    pub products: Vec<Product>,
}

/// The verbs of a lock and of a thread that is tried on it.
pub struct Verbs {
    pub opens: &'static str,
    /// Of several locks.
    pub open: &'static str,
    pub holds: &'static str,
    pub lacks: &'static str,
}

pub const PRESENT: Verbs = Verbs {
    opens: "opens",
    open: "open",
    holds: "holds",
    lacks: "doesn't hold",
};

pub const PAST: Verbs = Verbs {
    opens: "opened",
    open: "opened",
    holds: "held",
    lacks: "didn't hold",
};

impl Judgement {
    /// With the lock in the answer.
    pub fn answered(self, answer: Result<u16, Refusal>) -> Judgement {
        let decided = match answer {
            Ok(lock) => Some(lock),
            Err(Refusal::Denied(lock)) => Some(lock.0),
            Err(_) => None,
        };
        Judgement { decided, ..self }
    }

    pub fn grants(&self) -> impl Iterator<Item = &Tried> {
        self.locks.iter().filter(|tried| !tried.lock.denies())
    }

    /// Of the grant locks' products the one that the fewest keys hold shut, the
    /// first of several, with its lock's number.
    pub fn nearest(&self) -> Option<(u16, &Product)> {
        let products = self.grants().flat_map(|tried| {
            let number = tried.lock.number;
            tried.products.iter().map(move |product| (number, product))
        });
        products.min_by_key(|(_, product)| product.disagreeing().count())
    }

    /// How the lock that decided opened: `Lock 2 opens: thread 0 holds S0.` Where it
    /// is one of several grant locks, why it answers: `Lock 3 opens with two keys, lock
    /// 1 with one: the tighter one answers. Thread 0 holds S0 and S1.`
    pub(super) fn opening(&self, verbs: &Verbs) -> String {
        let Some((tried, place)) = self.deciding() else {
            return String::new();
        };
        let wanted = wanted(&tried.lock.products[place], verbs.holds, verbs.lacks);
        let (number, thread) = (tried.lock.number, &self.thread_said);
        match choice::why(self, verbs) {
            Some(why) => format!("{why} {} {wanted}.", capital(thread)),
            None => format!("Lock {number} {}: {thread} {wanted}.", verbs.opens),
        }
    }

    /// Of several grant locks that open, why this one answers or doesn't: `With one key
    /// it is looser`. None where no grant lock answers, or only one opens.
    pub fn rank(&self, tried: &Tried) -> Option<String> {
        choice::rank(self, tried)
    }

    /// Which keys that its product bars were taken, a sentence each with a blank
    /// before it: ` D0 was taken from segment 0 in step 9.`
    pub fn withdrawn(&self) -> String {
        let product = self.deciding().map(|(tried, place)| &tried.products[place]);
        let sentences = product.map_or(Vec::new(), Product::withdrawn);
        sentences.iter().map(|said| format!(" {said}")).collect()
    }

    /// The lock that decided, and the place of its longest product that opens.
    fn deciding(&self) -> Option<(&Tried, usize)> {
        let mut locks = self.locks.iter();
        let tried = locks.find(|tried| self.decided == Some(tried.lock.number))?;
        Some((tried, tried.longest()?))
    }
}

impl Tried {
    pub fn opens(&self) -> bool {
        self.products.iter().any(|product| product.opens)
    }

    /// How many keys its longest product has that opens, barred ones counted. 0 where
    /// it stays shut.
    pub fn tightness(&self) -> usize {
        let longest = self.longest().map(|place| &self.products[place]);
        longest.map_or(0, |product| product.literals.len())
    }

    /// The same in words: `two keys`.
    pub fn keys_in_words(&self) -> String {
        let count = self.tightness();
        let noun = if count == 1 { "key" } else { "keys" };
        format!("{} {noun}", spelt(count))
    }

    /// The place of that product, the first of equally long ones.
    pub fn longest(&self) -> Option<usize> {
        let products = self.products.iter().enumerate();
        let open = products.filter(|(_, product)| product.opens);
        let longest = open.min_by_key(|(_, product)| Reverse(product.literals.len()));
        longest.map(|(place, _)| place)
    }
}

/// The thread and the segment of a C or an A.
pub fn asked(record: &Record) -> Option<(Thread, Segment)> {
    match Call::of(record)? {
        Call::CallSegment { thread, segment } => Some((thread, segment)),
        Call::Access {
            thread, segment, ..
        } => Some((thread, segment)),
        Call::NewUser | Call::NewSegment { .. } | Call::NewKey { .. } => None,
        Call::StartThread { .. } | Call::EndThread { .. } | Call::ReturnCall { .. } => None,
        Call::GiveKey { .. } | Call::TakeKey { .. } => None,
        Call::AddLock { .. } | Call::DropLock { .. } => None,
    }
}

/// How the locks decide a call. Asked before the guard is asked the call, of
/// what stands then.
pub fn of(state: &State, guard: &Guard, record: &Record) -> Option<Judgement> {
    let (thread, segment) = asked(record)?;
    let operation = state.history.operation(&for_history(record))?;
    let keys = state.key_set(thread);
    let tester = Tester {
        state,
        guard,
        thread,
    };
    let locks = view::locks(state, segment, operation).into_iter();
    let locks = locks.map(|lock| tried(tester, &keys, lock));
    Some(Judgement {
        thread,
        segment,
        thread_said: state.said(thread),
        segment_said: state.said(segment),
        operation,
        locks: locks.collect(),
        keys,
        decided: None,
    })
}

fn tried(tester: Tester, keys: &[Key], lock: Lock) -> Tried {
    let products = lock.products.iter();
    Tried {
        products: products
            .map(|product| tester.tried(keys, product))
            .collect(),
        lock,
    }
}
