//! The reference with a fault, by which one thread's calls show in what another is
//! answered.

use reference::call::Call;
use reference::guard::{Answer, Guard, Refusal};
use reference::history::{History, Verdict};
use reference::limits::MAX_FRAMES;
use reference::{Key, Kind};
use std::collections::BTreeSet;
use testing::trials;

/// What is wrong with a guard.
#[derive(Clone, Copy, Debug)]
pub enum Fault {
    /// R closes the newest open call of every thread.
    ReturnsEverywhere,
    /// All threads together have as many open calls as one may have.
    OneStack,
    /// A asks the keys of every thread's open calls.
    KeysOfAll,
    /// A asks the keys of the live thread with the next number.
    KeysOfNext,
    /// D counts the open calls of every thread among the products removed.
    CountsOpenCalls,
    /// T counts the open calls of other threads that lose the key among the keys left.
    CountsLosses,
    /// U answers a number that is higher by the open calls of every thread.
    NumbersByOpenCalls,
}

/// Those that show in what a thread is answered.
pub const FAULTS: [Fault; 6] = [
    Fault::ReturnsEverywhere,
    Fault::OneStack,
    Fault::KeysOfAll,
    Fault::KeysOfNext,
    Fault::CountsOpenCalls,
    Fault::CountsLosses,
];

pub struct Faulty {
    guard: Guard,
    history: History,
    fault: Fault,
}

impl Faulty {
    pub fn new(fault: Fault) -> Faulty {
        Faulty {
            guard: Guard::new(),
            history: History::new(),
            fault,
        }
    }

    /// What the fault makes of the right answer.
    fn spoil(&mut self, call: Call, answer: Answer) -> Answer {
        match (self.fault, call) {
            (Fault::ReturnsEverywhere, Call::ReturnCall { thread }) if answer.is_ok() => {
                self.return_others(thread);
                answer
            }
            (Fault::OneStack, Call::CallSegment { thread, .. }) if answer.is_ok() => {
                self.call_on_one_stack(thread, answer)
            }
            (
                Fault::KeysOfAll | Fault::KeysOfNext,
                Call::Access {
                    thread,
                    segment,
                    operation,
                },
            ) if by_locks(answer) => self.check(&self.keys(thread), segment, operation),
            (
                Fault::CountsLosses,
                Call::TakeKey {
                    thread,
                    segment,
                    key,
                },
            ) => answer.map(|number| number + self.losses_of_others(thread, segment, key)),
            (Fault::CountsOpenCalls, Call::DropLock { .. })
            | (Fault::NumbersByOpenCalls, Call::NewUser) => {
                let open = self.open_calls(self.history.live_threads()).count();
                answer.map(|number| number + open as u16)
            }
            _ => answer,
        }
    }

    fn return_others(&mut self, thread: u16) {
        for other in self.history.live_threads().filter(|live| *live != thread) {
            let _ = self.guard.return_call(other);
        }
    }

    fn call_on_one_stack(&mut self, thread: u16, answer: Answer) -> Answer {
        if self.open_calls(self.history.live_threads()).count() < MAX_FRAMES {
            return answer;
        }
        let _ = self.guard.return_call(thread);
        Err(Refusal::Full)
    }

    /// How many open calls of other threads an accepted T takes the key from.
    fn losses_of_others(&self, thread: u16, segment: u16, key: u16) -> u16 {
        let key = Key {
            kind: Kind::Defined,
            number: key,
        };
        let others = self.history.live_threads().filter(|live| *live != thread);
        let others = others.filter_map(|other| self.history.thread(other));
        let calls = others.flat_map(|thread| &thread.open_calls);
        let lose = calls.filter(|call| call.segment == segment && call.list.contains(&key));
        lose.count() as u16
    }

    /// The key lists of these threads' open calls.
    fn open_calls(&self, threads: impl Iterator<Item = u16>) -> impl Iterator<Item = &Vec<Key>> {
        let threads = threads.filter_map(|thread| self.history.thread(thread));
        let open_calls = threads.flat_map(|thread| &thread.open_calls);
        open_calls.map(|call| &call.list)
    }

    fn keys(&self, thread: u16) -> BTreeSet<Key> {
        let live = || self.history.live_threads();
        let asked = match self.fault {
            Fault::KeysOfNext => live().find(|next| *next > thread).unwrap_or(thread),
            _ => thread,
        };
        let mut keys = self.history.key_set(asked).expect("a live thread");
        if let Fault::KeysOfAll = self.fault {
            keys.extend(self.open_calls(live()).flatten());
        }
        keys
    }

    /// What the standing locks answer to these keys.
    fn check(&self, keys: &BTreeSet<Key>, segment: u16, operation: u16) -> Answer {
        match self.history.judgement(keys, segment, operation) {
            Verdict::Granted(lock) => Ok(lock),
            Verdict::Denied(lock) => Err(Refusal::Denied(lock)),
            Verdict::NotGranted => Err(Refusal::NotGranted),
            Verdict::Full => unreachable!("open calls aren't counted"),
        }
    }
}

/// Whether the locks decided.
fn by_locks(answer: Answer) -> bool {
    matches!(
        answer,
        Ok(_) | Err(Refusal::Denied(_) | Refusal::NotGranted)
    )
}

impl trials::Guard for Faulty {
    fn call(&mut self, letter: u8, [a, b, c]: [u16; 3], text: &[u8]) -> Answer {
        let answer = self.guard.call(letter, a, b, c, text);
        let Some(call) = Call::of_parts(letter, [a, b, c], text) else {
            return answer;
        };
        let answer = self.spoil(call, answer);
        self.history.feed(&call.into(), answer.ok());
        answer
    }
}
