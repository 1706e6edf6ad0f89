//! One thread's neighbours (document 02, P2): a list without what they call,
//! and one with other calls of theirs.

use crate::calls::{Caller, World};
use crate::random::Random;
use reference::call::Call;
use reference::guard::{Answer, Guard};
use reference::journal::Record;
use reference::letter::Letter;
use reference::operations::{READ, WRITE};

/// Whether a record is struck out for the one thread's sake: a C, R or A of
/// another, by its letter and field a alone, whatever it answers. An edit stays,
/// whoever's thread it names: it changes segments and locks that all share.
pub fn is_struck(one: u16, record: &Record) -> bool {
    matches!(record.letter, b'C' | b'R' | b'A') && record.a != one
}

/// What is left of a list.
pub fn strike(one: u16, list: &[Record]) -> Vec<Record> {
    let left = list.iter().filter(|record| !is_struck(one, record));
    left.cloned().collect()
}

/// What a neighbour calls when it is its turn: each letter as often as it stands.
const TURNS: [&[Letter]; 4] = [
    &[Letter::CallSegment],
    &[Letter::CallSegment, Letter::ReturnCall],
    &[Letter::ReturnCall, Letter::Access],
    &[
        Letter::CallSegment,
        Letter::CallSegment,
        Letter::ReturnCall,
        Letter::Access,
    ],
];
/// The most calls of a turn: they fill a stack, and more.
const MOST_IN_A_TURN: usize = 24;
/// A turn comes before one in this many of the calls that are left.
const TURN_SHARE: usize = 8;
/// One in this many of a neighbour's calls that would be refused is made.
const REFUSED_SHARE: usize = 3;
/// One in this many of a neighbour's calls has a shape that no call has.
const MISSHAPEN_SHARE: usize = 30;

/// A list that is the same once struck, with other calls in place of those that
/// are struck.
pub fn crowd(random: &mut Random, world: &World, one: u16, list: &[Record]) -> Vec<Record> {
    let mut names = Random::new(random.bits());
    let mut crowd = Crowd {
        random,
        caller: Caller::new(&mut names, world),
        guard: Guard::new(),
        one,
        list: Vec::new(),
    };
    for record in strike(one, list) {
        if crowd.random.one_in(TURN_SHARE) {
            crowd.take_turn();
        }
        crowd.keep(record);
    }
    crowd.list
}

/// A list as far as it is made, and a guard after it.
struct Crowd<'a> {
    random: &'a mut Random,
    /// Knows what there is to name.
    caller: Caller<'a>,
    guard: Guard,
    one: u16,
    list: Vec<Record>,
}

impl Crowd<'_> {
    fn answer(&mut self, record: &Record) -> Answer {
        let Record {
            letter, a, b, c, ..
        } = *record;
        self.guard.call(letter, a, b, c, &record.text)
    }

    fn keep(&mut self, record: Record) {
        if let Ok(answer) = self.answer(&record) {
            self.caller.learn(&record, answer);
        }
        self.list.push(record);
    }

    fn take_turn(&mut self) {
        let thread = self.neighbour();
        let letters = self.random.pick(&TURNS);
        for _ in 0..self.random.between(1, MOST_IN_A_TURN) {
            let letter = self.random.pick(letters);
            let mut record = self.call_of(thread, letter);
            if self.random.one_in(MISSHAPEN_SHARE) {
                self.caller.misshape(&mut record);
            }
            self.put_in(record);
        }
    }

    /// Another thread than the one; one that isn't live, if there is no other.
    fn neighbour(&mut self) -> u16 {
        loop {
            let thread = self.caller.thread();
            if thread != self.one {
                return thread;
            }
        }
    }

    fn call_of(&mut self, thread: u16, letter: Letter) -> Record {
        let call = match letter {
            Letter::CallSegment => Call::CallSegment {
                thread,
                segment: self.caller.segment(Some(false)),
            },
            Letter::ReturnCall => Call::ReturnCall { thread },
            _ => Call::Access {
                thread,
                segment: self.caller.segment(Some(true)),
                operation: self.operation(),
            },
        };
        call.into()
    }

    fn operation(&mut self) -> u16 {
        let operation = self.random.pick(&[READ, WRITE]);
        self.caller.or_stray(operation, 8)
    }

    /// A call that is struck goes into the list if it is accepted, or now and then.
    fn put_in(&mut self, record: Record) {
        if !is_struck(self.one, &record) {
            return;
        }
        if self.answer(&record).is_ok() || self.random.one_in(REFUSED_SHARE) {
            self.list.push(record);
        }
    }
}

#[cfg(test)]
mod tests {
    use super::{Record, strike};
    use crate::calls::{bare, call, lock};

    /// Each record, and whether it is left where 1 is the one thread.
    fn records() -> Vec<(Record, bool)> {
        vec![
            (call(b'U', 0, 0, 0), true),
            (call(b'S', 0, 0, 0), true),
            (call(b'E', 0, 0, 0), true),
            (call(b'N', 0, 1, 0), true),
            (call(b'K', 0, 0, 0), true),
            (call(b'G', 0, 0, 0), true),
            (call(b'T', 0, 0, 0), true),
            (lock(0, 0, 1, b"U0"), true),
            (call(b'D', 0, 0, 0), true),
            (call(b'C', 0, 1, 0), false),
            (call(b'R', 0, 0, 0), false),
            (call(b'A', 0, 1, 2), false),
            (call(b'C', 1, 0, 0), true),
            (call(b'R', 1, 0, 0), true),
            (call(b'A', 1, 0, 2), true),
            (call(b'E', 1, 0, 0), true),
            (call(b'N', 1, 1, 0), true),
            (call(b'K', 1, 0, 0), true),
            (call(b'G', 1, 0, 0), true),
            (call(b'T', 1, 0, 0), true),
            (lock(1, 0, 1, b"U0"), true),
            (call(b'D', 1, 0, 0), true),
            // Numbers never started, and records that aren't well formed.
            (call(b'C', 65_535, 1, 0), false),
            (call(b'N', 65_535, 1, 0), true),
            (lock(65_535, 0, 1, b"U0"), true),
            (call(b'C', 0, 1, 1), false),
            (call(b'R', 0, 1, 1), false),
            (bare(b'A', 1), false),
            (call(b'C', 1, 1, 1), true),
            (call(b'R', 1, 1, 1), true),
            (call(b'c', 0, 1, 0), true),
            (call(0, 0, 0, 0), true),
        ]
    }

    #[test]
    fn struck_by_letter_and_field_a() {
        let list: Vec<Record> = records().into_iter().map(|(record, _)| record).collect();
        let left = records().into_iter().filter(|(_, is_left)| *is_left);
        let left: Vec<Record> = left.map(|(record, _)| record).collect();
        assert_eq!(strike(1, &list), left);
    }
}
