//! Both guards side by side. Every call goes to both, and they must give the
//! same answer. The proved guard's arrays are compared after every call, all of
//! their cells: after a refusal they are as they were, and after an accepted
//! call only the part that the call is about may differ. What an accepted T makes
//! of open calls is written down here, cell by cell.

use super::ACCESSES;
use super::frames::withdraw;
use super::tally::Tally;
use compare::guard::{Cells, Guard, Own, coded, filled_with, outcome};
use reference::call::Call;
use reference::guard::Answer;
use reference::journal::Record;
use std::collections::BTreeMap;
use testing::trials;

pub struct Pair {
    reference: reference::guard::Guard,
    proved: Guard,
    /// What the proved guard's cells must be.
    expected: Box<Cells>,
    /// Where each live thread stands in the array.
    places: BTreeMap<u16, usize>,
    /// The segment of each standing lock.
    locked: BTreeMap<u16, u16>,
    pub tally: Tally,
    /// How many frames have lost a key, those of ended threads included.
    pub withdrawn: usize,
}

impl Pair {
    /// Both in the empty state, which has 0 in every cell.
    pub fn new() -> Pair {
        let proved = Guard::new();
        let expected = filled_with(0);
        assert!(*proved.cells() == *expected, "the empty state");
        Pair {
            reference: reference::guard::Guard::new(),
            proved,
            expected,
            places: BTreeMap::new(),
            locked: BTreeMap::new(),
            tally: Tally::default(),
            withdrawn: 0,
        }
    }

    /// One call on both. `direct` sends a C, R or A of the right shape to its
    /// own function and not to the entry.
    pub fn call(&mut self, record: &Record, direct: bool) -> Answer {
        let Record {
            letter, a, b, c, ..
        } = *record;
        let text = &record.text[..];
        let answer = self.reference.call(letter, a, b, c, text);
        let given = match Own::of_record(record) {
            Some(own) if direct => self.proved.call_own(own),
            _ => self.proved.call(letter, a, b, c, text),
        };
        if given != coded(answer) {
            let numbers = (outcome(given), given % 65_536);
            panic!("{record:?}: {answer:?} expected, {numbers:?} given");
        }
        if let Ok(answer) = answer {
            let call = Call::of(record).expect("an accepted call is well formed");
            self.expect_change(call, answer);
        }
        let same = *self.proved.cells() == *self.expected;
        assert!(same, "a cell is another than it must be after {record:?}");
        self.tally.add(letter, outcome(given));
        answer
    }

    /// Takes over what an accepted call may change.
    fn expect_change(&mut self, call: Call, answer: u16) {
        let (new, cells) = (usize::from(answer), self.proved.cells());
        match call {
            Call::NewUser => self.expected.registry = cells.registry,
            Call::StartThread { .. } => {
                self.expected.registry = cells.registry;
                self.expect_started(answer);
            }
            Call::EndThread { thread } => {
                self.expect_thread(thread);
                self.places.remove(&thread);
            }
            Call::NewSegment { .. } => {
                self.expected.registry = cells.registry;
                self.expected.segments[new] = cells.segments[new];
                self.expected.locks[new] = cells.locks[new];
            }
            Call::NewKey { .. } => {
                self.expected.registry = cells.registry;
                self.expected.makers[new] = cells.makers[new];
            }
            Call::GiveKey { segment, .. } => self.expect_list(segment),
            Call::TakeKey { segment, key, .. } => {
                self.expect_list(segment);
                self.withdrawn += withdraw(&mut self.expected.threads, segment, key);
            }
            Call::AddLock { segment, .. } => {
                self.expected.registry = cells.registry;
                self.locked.insert(answer, segment);
                self.expect_locks(segment);
            }
            Call::DropLock { lock, .. } => {
                let segment = self.locked.remove(&lock);
                self.expect_locks(segment.expect("a standing lock has a segment"));
            }
            Call::CallSegment { thread, .. } | Call::ReturnCall { thread } => {
                self.expect_thread(thread);
            }
            Call::Access { .. } => {}
        }
    }

    /// Finds the place of a thread that was started, which no other has.
    fn expect_started(&mut self, thread: u16) {
        let (given, expected) = (&self.proved.cells().threads, &self.expected.threads);
        let place = (0..given.len()).find(|place| given[*place] != expected[*place]);
        let place = place.expect("a started thread is written");
        let taken = self.places.values().any(|other| *other == place);
        assert!(!taken, "thread {thread} takes another's place");
        self.places.insert(thread, place);
        self.expect_thread(thread);
    }

    fn expect_thread(&mut self, thread: u16) {
        let place = self.places[&thread];
        self.expected.threads[place] = self.proved.cells().threads[place];
    }

    fn expect_list(&mut self, segment: u16) {
        let segment = usize::from(segment);
        self.expected.segments[segment] = self.proved.cells().segments[segment];
    }

    fn expect_locks(&mut self, segment: u16) {
        let segment = usize::from(segment);
        self.expected.locks[segment] = self.proved.cells().locks[segment];
    }

    /// Every C and every A of every live thread on every segment, each by its own
    /// function. Answers how many.
    pub fn compare_checks(&self, segments: usize) -> u64 {
        let mut checks = 0;
        let (mut proved, mut reference) = (self.proved.clone(), self.reference.clone());
        for &thread in self.places.keys() {
            for segment in 0..segments as u16 {
                for operation in ACCESSES {
                    assert_eq!(
                        self.proved.access(thread, segment, operation),
                        coded(self.reference.access(thread, segment, operation)),
                        "A {thread} {segment} {operation}"
                    );
                    checks += 1;
                }
                let called = coded(reference.call_segment(thread, segment));
                let given = proved.call_segment(thread, segment);
                assert_eq!(given, called, "C {thread} {segment}");
                if outcome(called) == 0 {
                    let left = coded(reference.return_call(thread));
                    assert_eq!(proved.return_call(thread), left, "R {thread}");
                }
                checks += 1;
            }
        }
        let same = *self.proved.cells() == *self.expected;
        assert!(same, "an access has changed a cell");
        checks
    }
}

impl trials::Guard for Pair {
    fn call(&mut self, letter: u8, [a, b, c]: [u16; 3], text: &[u8]) -> Answer {
        let text = text.to_vec();
        let direct = self.tally.calls() % 2 == 1;
        let record = Record {
            letter,
            a,
            b,
            c,
            text,
        };
        Pair::call(self, &record, direct)
    }
}
