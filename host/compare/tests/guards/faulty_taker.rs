//! The proved guard with a fault in what a T makes of open calls, put into its
//! arrays. What its T made of them is put back first, so a fault is all there is.

use super::frames::{Frame, LIVE, NO_KEY, Table, code, depth, frames, strike, withdraw};
use compare::guard::{Cells, Guard, coded, outcome};
use reference::call::Call;
use reference::guard::Answer;
use reference::journal::Record;
use reference::limits::MAX_FRAMES;
use rotundaaloe::raw::{self, Threads};
use testing::faults::Suspect;

// Cells of row 0 of a thread.
const NUMBER: usize = 0;
const USER: usize = 1;

const NO_THREAD: u32 = 2;
const NOT_OWNER: u32 = 6;

/// What is wrong with a guard.
#[derive(Clone, Copy, Debug, PartialEq, Eq)]
pub enum Fault {
    /// No open call loses the key.
    NoCall,
    /// Of each thread, the newest open call alone can lose it.
    NewestAlone,
    /// Of each thread, the newest open call of the segment alone loses it.
    NewestOfTheSegment,
    /// Of each thread, the oldest open call of the segment alone loses it.
    OldestOfTheSegment,
    /// The sixteenth open call of a thread keeps it.
    LeavesOutTheLast,
    /// One thread alone loses it, the first that is found.
    OneThread,
    /// The thread alone that took it loses it.
    OwnThread,
    /// Only the threads of the user who took it lose it.
    OwnUser,
    /// Open calls of other segments lose it too.
    EverySegment,
    /// Open calls of the segment lose every defined key.
    EveryKey,
    /// Open calls that lost the key have it again when it is given again.
    ComesBack,
    /// A key that is given comes to open calls too: they have the list of now.
    ListOfNow,
    /// A T that is refused by 2 withdraws.
    WithoutAThread,
    /// A T that is refused by 6 withdraws.
    OfAnother,
}

pub const FAULTS: [Fault; 14] = [
    Fault::NoCall,
    Fault::NewestAlone,
    Fault::NewestOfTheSegment,
    Fault::OldestOfTheSegment,
    Fault::LeavesOutTheLast,
    Fault::OneThread,
    Fault::OwnThread,
    Fault::OwnUser,
    Fault::EverySegment,
    Fault::EveryKey,
    Fault::ComesBack,
    Fault::ListOfNow,
    Fault::WithoutAThread,
    Fault::OfAnother,
];

/// A T: its thread, its segment and its key.
#[derive(Clone, Copy)]
struct Take {
    thread: u16,
    segment: u16,
    key: u16,
}

pub struct Faulty {
    cells: Box<Cells>,
    /// None for a guard as it must be.
    fault: Option<Fault>,
    /// The frames as they were when their calls were made.
    found: Box<Threads>,
}

impl Suspect for Faulty {
    type Fault = Fault;

    fn new(fault: Option<Fault>) -> Faulty {
        let cells = Box::new(Guard::new().cells().clone());
        let found = Box::new(cells.threads);
        Faulty {
            cells,
            fault,
            found,
        }
    }

    fn agrees(&mut self, record: &Record, right: Answer) -> bool {
        self.call(record) == coded(right)
    }
}

impl Faulty {
    fn call(&mut self, record: &Record) -> u32 {
        let Record {
            letter, a, b, c, ..
        } = *record;
        let call = Call::of(record);
        let threads = self.cells.threads;
        let answer = raw::call(&mut self.cells, letter, a, b, c, &record.text);
        if matches!(call, Some(Call::TakeKey { .. })) {
            self.cells.threads = threads;
        }
        let take = Take {
            thread: a,
            segment: b,
            key: c,
        };
        match (call, outcome(answer)) {
            (Some(Call::TakeKey { .. }), outcome) => self.take(take, outcome),
            (Some(Call::GiveKey { segment, key, .. }), 0) => self.give(segment, key),
            (Some(Call::CallSegment { thread, .. }), 0) => self.remember(thread),
            _ => {}
        }
        answer
    }

    /// What a T with this outcome makes of open calls.
    fn take(&mut self, take: Take, outcome: u32) {
        match (outcome, self.fault) {
            (0, Some(fault)) => self.take_wrongly(take, fault),
            (0, None)
            | (NO_THREAD, Some(Fault::WithoutAThread))
            | (NOT_OWNER, Some(Fault::OfAnother)) => {
                withdraw(&mut self.cells.threads, take.segment, take.key);
            }
            _ => {}
        }
    }

    fn take_wrongly(&mut self, take: Take, fault: Fault) {
        let user = self.user_of(take.thread);
        let first = self.first_with(take);
        for (place, table) in self.cells.threads.iter_mut().enumerate() {
            let before = *table;
            for (frame, row) in frames(table).iter_mut().zip(1..) {
                let is_of_segment = frame[0] == take.segment;
                let loses = match fault {
                    Fault::OneThread => is_of_segment && Some(place) == first,
                    Fault::OwnUser => is_of_segment && Some(before[0][USER]) == user,
                    Fault::EverySegment => true,
                    _ => is_of_segment && loses(fault, take, &before, row),
                };
                if loses && fault == Fault::EveryKey {
                    frame[1..].fill(NO_KEY);
                } else if loses {
                    strike(frame, take.key);
                }
            }
        }
    }

    /// The first place where an open call loses the key.
    fn first_with(&self, Take { segment, key, .. }: Take) -> Option<usize> {
        let has = |frame: &Frame| frame[0] == segment && frame.contains(&code(key));
        let mut places = self.cells.threads.iter();
        places.position(|table| table[1..=depth(table)].iter().any(has))
    }

    /// What an accepted G makes of open calls.
    fn give(&mut self, segment: u16, key: u16) {
        let places = self.cells.threads.iter_mut().zip(self.found.iter());
        for (place, found) in places {
            let of_frames = frames(place).iter_mut().zip(&found[1..]);
            for (frame, found) in of_frames.filter(|(frame, _)| frame[0] == segment) {
                let cell = match self.fault {
                    Some(Fault::ComesBack) => found.iter().position(|cell| *cell == code(key)),
                    Some(Fault::ListOfNow) => frame.iter().position(|cell| *cell == NO_KEY),
                    _ => None,
                };
                if let Some(cell) = cell {
                    frame[cell] = code(key);
                }
            }
        }
    }

    /// Keeps the newest frame of a thread as it is.
    fn remember(&mut self, thread: u16) {
        let place = self.place_of(thread).expect("a live thread calls");
        let table = &self.cells.threads[place];
        let newest = depth(table);
        self.found[place][newest] = table[newest];
    }

    fn place_of(&self, thread: u16) -> Option<usize> {
        let mut threads = self.cells.threads.iter();
        threads.position(|table| table[0][LIVE] != 0 && table[0][NUMBER] == thread)
    }

    fn user_of(&self, thread: u16) -> Option<u16> {
        let place = self.place_of(thread)?;
        Some(self.cells.threads[place][0][USER])
    }
}

/// Whether the frame in this row of a thread's table loses the key. It is of the
/// segment.
fn loses(fault: Fault, take: Take, table: &Table, row: usize) -> bool {
    let depth = depth(table);
    let is_of_segment = |row: usize| table[row][0] == take.segment;
    match fault {
        Fault::NoCall => false,
        Fault::NewestAlone => row == depth,
        Fault::NewestOfTheSegment => !(row + 1..=depth).any(is_of_segment),
        Fault::OldestOfTheSegment => !(1..row).any(is_of_segment),
        Fault::LeavesOutTheLast => row < MAX_FRAMES,
        Fault::OwnThread => table[0][NUMBER] == take.thread,
        _ => true,
    }
}
