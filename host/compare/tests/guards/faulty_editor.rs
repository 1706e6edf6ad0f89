//! The proved guard with a fault in who edits, put into its arrays or its answers.

use compare::guard::{Cells, Guard, outcome};
use reference::call::Call;
use reference::journal::Record;
use reference::letter::Letter;
use rotundaaloe::raw;
use std::collections::BTreeMap;

// Cells of row 0 of a thread and of a segment.
const NUMBER: usize = 0;
const USER: usize = 1;
const LIVE: usize = 3;
const OWNER: usize = 0;

const STRANGER: u32 = 65_536;
const NO_THREAD: u32 = 2 * 65_536;
const NO_SEGMENT: u32 = 3 * 65_536;
const NOT_OWNER: u32 = 6 * 65_536;

/// What is wrong with a guard.
#[derive(Clone, Copy, Debug, PartialEq, Eq)]
pub enum Fault {
    /// The thread's number is taken for the user's.
    NumberIsUser,
    /// A thread that has ended edits, for the user that it had.
    EndedEdits,
    /// An edit by a thread that has ended is refused by 1.
    EndedIsStranger,
    /// A key's maker is the thread.
    ThreadMakes,
    /// A segment's owner is the thread.
    ThreadOwns,
    /// Only the thread that made a segment edits it.
    MakerAlone,
    /// The segment is judged before the thread.
    SegmentFirst,
}

pub const FAULTS: [Fault; 7] = [
    Fault::NumberIsUser,
    Fault::EndedEdits,
    Fault::EndedIsStranger,
    Fault::ThreadMakes,
    Fault::ThreadOwns,
    Fault::MakerAlone,
    Fault::SegmentFirst,
];

pub struct Faulty {
    cells: Box<Cells>,
    fault: Fault,
    /// The users of threads that have ended.
    ended: BTreeMap<u16, u16>,
    /// The thread that made each segment.
    made_by: Vec<u16>,
    /// The segment of each lock.
    locked: BTreeMap<u16, u16>,
}

impl Faulty {
    pub fn new(fault: Fault) -> Faulty {
        Faulty {
            cells: Box::new(Guard::new().cells().clone()),
            fault,
            ended: BTreeMap::new(),
            made_by: Vec::new(),
            locked: BTreeMap::new(),
        }
    }

    pub fn call(&mut self, record: &Record) -> u32 {
        let user = self.user_of(record.a);
        let answer = match Letter::of(record.letter) {
            Some(letter) if letter.is_edit() => self.edit(record),
            _ => self.right(record),
        };
        if outcome(answer) == 0 {
            self.learn(record, answer as u16, user);
        }
        answer
    }

    /// The proved guard's own answer.
    fn right(&mut self, record: &Record) -> u32 {
        let Record {
            letter, a, b, c, ..
        } = *record;
        raw::call(&mut self.cells, letter, a, b, c, &record.text)
    }

    fn edit(&mut self, record: &Record) -> u32 {
        let thread = record.a;
        let live = self.place_of(thread);
        match self.fault {
            Fault::NumberIsUser => match live {
                Some(place) => self.edit_as(thread, place, record),
                None => self.right(record),
            },
            Fault::EndedEdits => match (self.ended.get(&thread), self.any_place()) {
                (Some(user), Some(place)) => self.edit_as(*user, place, record),
                _ => self.right(record),
            },
            Fault::EndedIsStranger => match self.right(record) {
                NO_THREAD if self.ended.contains_key(&thread) => STRANGER,
                answer => answer,
            },
            Fault::ThreadMakes | Fault::ThreadOwns => self.right(record),
            Fault::MakerAlone => self.edit_by_maker(record),
            Fault::SegmentFirst => match self.right(record) {
                NO_THREAD if self.names_no_segment(record) => NO_SEGMENT,
                answer => answer,
            },
        }
    }

    /// An edit by the thread at this place, as if it had this user.
    fn edit_as(&mut self, user: u16, place: usize, record: &Record) -> u32 {
        let right = self.cells.threads[place][0][USER];
        self.cells.threads[place][0][USER] = user;
        let thread = self.cells.threads[place][0][NUMBER];
        let record = Record {
            a: thread,
            ..record.clone()
        };
        let answer = self.right(&record);
        self.cells.threads[place][0][USER] = right;
        answer
    }

    fn edit_by_maker(&mut self, record: &Record) -> u32 {
        let before = self.cells.clone();
        let answer = self.right(record);
        let segment = match Call::of(record) {
            Some(Call::DropLock { lock, .. }) => self.locked.get(&lock).copied(),
            _ => named_segment(record),
        };
        let made_by = segment.and_then(|segment| self.made_by.get(usize::from(segment)));
        if outcome(answer) == 0 && made_by.is_some_and(|thread| *thread != record.a) {
            self.cells = before;
            return NOT_OWNER;
        }
        answer
    }

    /// Whether the edit names a segment that isn't handed out.
    fn names_no_segment(&self, record: &Record) -> bool {
        let segment = named_segment(record);
        segment.is_some_and(|segment| usize::from(segment) >= self.made_by.len())
    }

    fn place_of(&self, thread: u16) -> Option<usize> {
        let mut threads = self.cells.threads.iter();
        threads.position(|table| table[0][LIVE] != 0 && table[0][NUMBER] == thread)
    }

    fn any_place(&self) -> Option<usize> {
        let mut threads = self.cells.threads.iter();
        threads.position(|table| table[0][LIVE] != 0)
    }

    fn user_of(&self, thread: u16) -> Option<u16> {
        let place = self.place_of(thread)?;
        Some(self.cells.threads[place][0][USER])
    }

    /// Takes over an accepted call, with the user of the thread in field a.
    fn learn(&mut self, record: &Record, answer: u16, user: Option<u16>) {
        match Call::of(record) {
            Some(Call::EndThread { thread }) => {
                self.ended.insert(thread, user.expect("it was live"));
            }
            Some(Call::NewSegment { thread, .. }) => {
                self.made_by.push(thread);
                if self.fault == Fault::ThreadOwns {
                    self.cells.segments[usize::from(answer)][0][OWNER] = thread;
                }
            }
            Some(Call::NewKey { thread }) if self.fault == Fault::ThreadMakes => {
                self.cells.makers[usize::from(answer)] = thread;
            }
            Some(Call::AddLock { segment, .. }) => {
                self.locked.insert(answer, segment);
            }
            _ => (),
        }
    }
}

/// The segment that an edit names itself.
fn named_segment(record: &Record) -> Option<u16> {
    match Call::of(record)? {
        Call::GiveKey { segment, .. } => Some(segment),
        Call::TakeKey { segment, .. } => Some(segment),
        Call::AddLock { segment, .. } => Some(segment),
        _ => None,
    }
}
