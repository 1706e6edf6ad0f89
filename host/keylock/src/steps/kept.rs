//! What the history doesn't keep: the texts and products of standing locks, who
//! made a key, whose a thread was, which step took a key from an open call, and
//! what the comments call things.

use super::Entry;
use crate::names::{Names, Thing};
use rotundaaloe::formula::{self, Issued, Key, Product};
use rotundaaloe::{Call, Defined, Record, Segment, Thread, User};
use std::collections::BTreeMap;

pub struct Formula {
    pub text: Vec<u8>,
    pub products: Vec<Product>,
}

/// A key that an open call handed over until a T took it.
#[derive(Clone, Copy, Debug, PartialEq, Eq)]
pub struct Taken {
    pub key: Key,
    /// The place of the T.
    pub step: usize,
}

impl Taken {
    /// `taken in step 12`
    pub fn when(&self) -> String {
        format!("taken in step {}", self.step)
    }
}

#[derive(Default)]
pub struct Kept {
    formulas: BTreeMap<u16, Formula>,
    locks_made: u32,
    /// The maker of each defined key.
    makers: Vec<User>,
    /// The user of each thread, ended ones too.
    users: Vec<User>,
    /// For each thread with open calls what was taken from each of them, the
    /// newest call last.
    taken: BTreeMap<Thread, Vec<Vec<Taken>>>,
    pub names: Names,
}

impl Kept {
    /// Learns the name of what an accepted call makes.
    pub fn learn(&mut self, entry: &Entry, answer: u16) {
        if let (Some(thing), Some(note)) = (made(&entry.record, answer), &entry.note) {
            self.names.learn(thing, note);
        }
    }

    /// Takes in an accepted call. The counts are those before it.
    pub fn take_in(&mut self, record: &Record, answer: u16, issued: Issued) {
        let Some(call) = Call::of(record) else {
            return;
        };
        match call {
            Call::NewKey { thread } => {
                let maker = self.user_of(thread);
                self.makers
                    .push(maker.expect("an accepted edit names a thread that was started"));
            }
            Call::StartThread { user } => self.users.push(user),
            Call::AddLock { text, .. } => {
                let products = formula::compile(text, issued);
                let formula = Formula {
                    text: text.to_vec(),
                    products: products.expect("an accepted text compiles"),
                };
                self.formulas.insert(answer, formula);
                self.locks_made += 1;
            }
            Call::DropLock { lock, .. } => {
                self.formulas.remove(&lock.0);
            }
            Call::CallSegment { thread, .. } => {
                self.taken.entry(thread).or_default().push(Vec::new());
            }
            Call::ReturnCall { thread } => {
                self.taken.entry(thread).or_default().pop();
            }
            Call::EndThread { thread } => {
                self.taken.remove(&thread);
            }
            Call::NewUser | Call::NewSegment { .. } | Call::Access { .. } => {}
            Call::GiveKey { .. } | Call::TakeKey { .. } => {}
        }
    }

    /// Writes down that a key was taken from a thread's open call, the one with so
    /// many older ones.
    pub fn withdraw(&mut self, thread: Thread, older: usize, taken: Taken) {
        let calls = self.taken.get_mut(&thread);
        let calls = calls.expect("a key is taken from an open call");
        calls[older].push(taken);
    }

    /// What was taken from a thread's open call, the one with so many older ones,
    /// the first taken first.
    pub fn taken_from(&self, thread: Thread, older: usize) -> &[Taken] {
        let call = self.taken.get(&thread).and_then(|calls| calls.get(older));
        call.map_or(&[], Vec::as_slice)
    }

    /// A standing lock's formula.
    pub fn formula(&self, lock: u16) -> &Formula {
        &self.formulas[&lock]
    }

    pub fn locks_made(&self) -> u32 {
        self.locks_made
    }

    pub fn maker(&self, key: Defined) -> Option<User> {
        self.makers.get(usize::from(key.0)).copied()
    }

    /// The user of a thread, live or ended.
    pub fn user_of(&self, thread: Thread) -> Option<User> {
        self.users.get(usize::from(thread.0)).copied()
    }
}

/// What an accepted call makes, of what can have a name.
fn made(record: &Record, answer: u16) -> Option<Thing> {
    match Call::of(record)? {
        Call::NewUser => Some(User(answer).into()),
        Call::StartThread { .. } => Some(Thread(answer).into()),
        Call::NewSegment { .. } => Some(Segment(answer).into()),
        Call::NewKey { .. } => Some(Defined(answer).into()),
        Call::EndThread { .. } | Call::AddLock { .. } | Call::DropLock { .. } => None,
        Call::GiveKey { .. } | Call::TakeKey { .. } => None,
        Call::CallSegment { .. } | Call::ReturnCall { .. } | Call::Access { .. } => None,
    }
}
