//! Guards that may have a fault, each beside the reference. A fault is found where their
//! answers differ: in lists of calls, or in the worked examples.

use crate::calls::{Caller, WORLDS, call};
use crate::random::Random;
use crate::trials::{self, TRIALS};
use reference::guard::{Answer, Guard};
use reference::journal::Record;
use std::fmt::Debug;

/// A guard that may have a fault.
pub trait Suspect {
    type Fault: Copy + Debug;

    /// In the empty state, with this fault or with none.
    fn new(fault: Option<Self::Fault>) -> Self;

    /// Makes a call, and says whether the answer is the right one.
    fn agrees(&mut self, record: &Record, right: Answer) -> bool;
}

/// The reference beside a suspect.
struct Beside<S> {
    reference: Guard,
    suspect: S,
    /// Whether an answer of theirs has differed.
    differs: bool,
}

impl<S: Suspect> Beside<S> {
    fn new(fault: Option<S::Fault>) -> Beside<S> {
        Beside {
            reference: Guard::new(),
            suspect: S::new(fault),
            differs: false,
        }
    }

    /// The right answer. The suspect's is compared with it.
    fn call(&mut self, record: &Record) -> Answer {
        let Record {
            letter, a, b, c, ..
        } = *record;
        let answer = self.reference.call(letter, a, b, c, &record.text);
        self.differs |= !self.suspect.agrees(record, answer);
        answer
    }
}

impl<S: Suspect> trials::Guard for Beside<S> {
    fn call(&mut self, letter: u8, [a, b, c]: [u16; 3], text: &[u8]) -> Answer {
        let record = Record {
            text: text.to_vec(),
            ..call(letter, a, b, c)
        };
        Beside::call(self, &record)
    }
}

/// Whether a fault shows in a list.
pub fn shows<S: Suspect>(fault: Option<S::Fault>, list: &[Record]) -> bool {
    let mut guards = Beside::<S>::new(fault);
    list.iter().any(|record| {
        let _ = guards.call(record);
        guards.differs
    })
}

/// The names of the worked examples in which a fault shows.
pub fn failed<S: Suspect>(fault: Option<S::Fault>) -> Vec<&'static str> {
    let failed = TRIALS.iter().filter(|(_, trial)| {
        let mut guards = Beside::<S>::new(fault);
        trial(&mut guards);
        guards.differs
    });
    failed.map(|(name, _)| *name).collect()
}

/// Each fault must show in more than one of `share` lists. Prints in how many it does.
#[track_caller]
pub fn assert_found<S: Suspect>(
    faults: &[S::Fault],
    lists: impl ExactSizeIterator<Item = Vec<Record>>,
    share: usize,
) {
    let count = lists.len();
    let mut found = vec![0; faults.len()];
    for list in lists {
        for (fault, found) in faults.iter().zip(&mut found) {
            *found += usize::from(shows::<S>(Some(*fault), &list));
        }
    }
    for (fault, found) in faults.iter().zip(found) {
        println!("{fault:?}: in {found} of {count} lists");
        assert!(found > count / share, "{fault:?}: in {found} lists");
    }
}

/// Each fault must show in a worked example. Prints in which it does.
#[track_caller]
pub fn assert_fail_an_example<S: Suspect>(faults: &[S::Fault]) {
    for fault in faults {
        let failed = failed::<S>(Some(*fault));
        println!("{fault:?}: {failed:?}");
        assert!(!failed.is_empty(), "{fault:?}");
    }
}

/// Without a fault nothing may differ, in so many lists of each of the [`WORLDS`].
#[track_caller]
pub fn assert_right_in_every_world<S: Suspect>(seed: u64, lists: usize) {
    let mut random = Random::new(seed);
    for world in &WORLDS {
        for _ in 0..lists {
            let mut guards = Beside::<S>::new(None);
            let mut caller = Caller::new(&mut random, world);
            for _ in 0..caller.length() {
                let record = caller.next_call();
                if let Ok(answer) = guards.call(&record) {
                    caller.learn(&record, answer);
                }
            }
            assert!(!guards.differs, "{}", world.name);
        }
    }
}
