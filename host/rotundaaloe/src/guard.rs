//! The guard with the arrays that it works on, and its twelve calls.

use crate::journal::Record;
use crate::numbers::{Access, Defined, Kind, Lock, Operations, Segment, Thread, User};
use crate::raw::{self, Cells};
use crate::refusal::{self, Refusal};
use crate::scope::{self, Enter};
use std::fmt;
use std::sync::RwLock;

/// An answer as the proved functions give it, below 65,536, or a refusal.
pub(crate) fn answered(answer: u32) -> Result<u16, Refusal> {
    let [number, second] = [answer / 65_536, answer % 65_536];
    match number {
        0 => Ok(second as u16),
        refusal => Err(Refusal::of(refusal, second as u16)),
    }
}

/// The guard and its protection state (document 01: desk). A refused call
/// changes nothing; no call panics, whatever it is handed.
///
/// An edit, which is N, K, G, T, L or D, names a live thread, whose user is the
/// editor: a host starts a thread before its first edit.
///
/// A clone is a copy of the whole state.
#[derive(Clone, PartialEq, Eq)]
pub struct Guard {
    cells: Box<Cells>,
}

/// Without the arrays, which nobody reads.
impl fmt::Debug for Guard {
    fn fmt(&self, f: &mut fmt::Formatter) -> fmt::Result {
        f.debug_struct("Guard").finish_non_exhaustive()
    }
}

/// How many numbers of each kind can still be handed out. Users, segments and
/// defined keys never come back; nor do the numbers of threads and locks.
#[derive(Clone, Copy, Debug, PartialEq, Eq)]
pub struct Left {
    pub users: u32,
    pub threads: u32,
    pub segments: u32,
    pub keys: u32,
    pub locks: u32,
}

impl Guard {
    /// A guard in the empty state.
    pub fn new() -> Guard {
        let mut cells = Box::new(Cells::EMPTY);
        raw::empty(&mut cells);
        Guard { cells }
    }

    /// A guard with these cells. Any numbers are some state; but what is promised
    /// of lists of calls is promised of those from an empty state. A host that
    /// keeps a state [saves](Guard::save) and [loads](Guard::load) it.
    pub fn from_cells(cells: Box<Cells>) -> Guard {
        Guard { cells }
    }

    /// The state as numbers.
    pub fn cells(&self) -> &Cells {
        &self.cells
    }

    /// What is left to hand out.
    pub fn left(&self) -> Left {
        let [users, threads, segments, keys, locks] = raw::left(&self.cells);
        Left {
            users,
            threads,
            segments,
            keys,
            locks,
        }
    }

    /// U: a new user.
    pub fn new_user(&mut self) -> Result<User, refusal::NewUser> {
        let answer = self.call(Record::new_user());
        answer.map(User).map_err(refusal::NewUser::of)
    }

    /// S: the user's new thread; an edit that names it is this user's. That the
    /// user is the person signed in is the host's to know.
    pub fn start_thread(&mut self, user: User) -> Result<Thread, refusal::StartThread> {
        let answer = self.call(Record::start_thread(user));
        answer.map(Thread).map_err(refusal::StartThread::of)
    }

    /// E: ends the thread. Answers how many open calls that closes.
    pub fn end_thread(&mut self, thread: Thread) -> Result<u16, refusal::EndThread> {
        let answer = self.call(Record::end_thread(thread));
        answer.map_err(refusal::EndThread::of)
    }

    /// N: a new segment, whose owner is the thread's user.
    pub fn new_segment(
        &mut self,
        thread: Thread,
        kind: Kind,
    ) -> Result<Segment, refusal::NewSegment> {
        let answer = self.call(Record::new_segment(thread, kind));
        answer.map(Segment).map_err(refusal::NewSegment::of)
    }

    /// K: a new defined key, whose maker is the thread's user.
    pub fn new_key(&mut self, thread: Thread) -> Result<Defined, refusal::NewKey> {
        let answer = self.call(Record::new_key(thread));
        answer.map(Defined).map_err(refusal::NewKey::of)
    }

    /// G: puts the key into the segment's list, for calls to come; an open call
    /// doesn't get it. Answers the keys now in the list.
    pub fn give_key(
        &mut self,
        thread: Thread,
        segment: Segment,
        key: Defined,
    ) -> Result<u16, refusal::GiveKey> {
        let answer = self.call(Record::give_key(thread, segment, key));
        answer.map_err(refusal::GiveKey::of)
    }

    /// T: takes the key out of the segment's list, and from every open call of the
    /// segment, in every thread. Answers the keys now in the list.
    pub fn take_key(
        &mut self,
        thread: Thread,
        segment: Segment,
        key: Defined,
    ) -> Result<u16, refusal::TakeKey> {
        let answer = self.call(Record::take_key(thread, segment, key));
        answer.map_err(refusal::TakeKey::of)
    }

    /// L: a new lock on the segment, for these operations, with this formula.
    pub fn add_lock(
        &mut self,
        thread: Thread,
        segment: Segment,
        operations: Operations,
        text: &str,
    ) -> Result<Lock, refusal::AddLock> {
        let answer = self.call(Record::add_lock(thread, segment, operations, text));
        answer.map(Lock).map_err(refusal::AddLock::of)
    }

    /// D: drops the lock. Answers how many products that removes.
    pub fn drop_lock(&mut self, thread: Thread, lock: Lock) -> Result<u16, refusal::DropLock> {
        let answer = self.call(Record::drop_lock(thread, lock));
        answer.map_err(refusal::DropLock::of)
    }

    /// C: the thread calls the segment. Answers the tightest lock that opened.
    #[inline]
    pub fn call_segment(
        &mut self,
        thread: Thread,
        segment: Segment,
    ) -> Result<Lock, refusal::CallSegment> {
        let answer = answered(raw::call_segment(&mut self.cells, thread.0, segment.0));
        answer.map(Lock).map_err(refusal::CallSegment::of)
    }

    /// R: the thread returns from its newest open call. Answers the segment that
    /// it leaves.
    #[inline]
    pub fn return_call(&mut self, thread: Thread) -> Result<Segment, refusal::ReturnCall> {
        let answer = answered(raw::return_call(&mut self.cells, thread.0));
        answer.map(Segment).map_err(refusal::ReturnCall::of)
    }

    /// A: the thread reads or writes the segment. Answers the tightest lock that opened.
    #[inline]
    pub fn access(
        &self,
        thread: Thread,
        segment: Segment,
        access: Access,
    ) -> Result<Lock, refusal::Access> {
        let operation = access as u16;
        let answer = answered(raw::access(&self.cells, thread.0, segment.0, operation));
        answer.map(Lock).map_err(refusal::Access::of)
    }

    /// Calls the segment, runs the body with the guard, and returns: also where
    /// the body gives an error, and on a panic. A C that is refused runs nothing.
    ///
    /// The thread is left with the open calls that it had before: inner calls
    /// that the body left open are returned from, none is where the body returned
    /// more often than it called, nor where it ended the thread.
    ///
    /// What the body gives is the answer, so a body that can fail is asked with
    /// two question marks:
    ///
    /// ```
    /// # use rotundaaloe::{Access, Guard, Kind, Operations, Refusal};
    /// # fn main() -> Result<(), Refusal> {
    /// # let mut guard = Guard::new();
    /// # let user = guard.new_user()?;
    /// # let thread = guard.start_thread(user)?;
    /// # let loader = guard.new_segment(thread, Kind::Code)?;
    /// # let totals = guard.new_segment(thread, Kind::Sheet)?;
    /// # guard.add_lock(thread, loader, Operations::EXECUTE, "U0")?;
    /// # guard.add_lock(thread, totals, Operations::WRITE, "S0")?;
    /// guard.within(thread, loader, |guard| {
    ///     guard.access(thread, totals, Access::Write)
    /// })??;
    /// assert_eq!(guard.depth(thread), Some(0));
    /// # Ok(())
    /// # }
    /// ```
    pub fn within<T>(
        &mut self,
        thread: Thread,
        segment: Segment,
        body: impl FnOnce(&mut Guard) -> T,
    ) -> Result<T, refusal::CallSegment> {
        scope::within(self, thread, segment, body)
    }

    /// As [`within`](Guard::within), for a guard that several threads of the
    /// operating system share: it is locked for the C and for the R, and not while
    /// the body runs.
    pub fn within_shared<T>(
        mut guard: &RwLock<Guard>,
        thread: Thread,
        segment: Segment,
        body: impl FnOnce() -> T,
    ) -> Result<T, refusal::CallSegment> {
        scope::within(&mut guard, thread, segment, |_| body())
    }

    /// Any call: a [`Call`](crate::Call), or a record as a journal has it. What
    /// the number in the answer is depends on the letter: a user, a lock, a count.
    pub fn call<'a>(&mut self, call: impl Into<Record<'a>>) -> Result<u16, Refusal> {
        let Record {
            letter,
            a,
            b,
            c,
            text,
        } = call.into();
        answered(raw::call(&mut self.cells, letter, a, b, c, text))
    }
}

impl Enter for Guard {
    fn depth(&self, thread: Thread) -> Option<usize> {
        Guard::depth(self, thread)
    }

    fn enter(&mut self, thread: Thread, segment: Segment) -> Result<(), refusal::CallSegment> {
        self.call_segment(thread, segment).map(drop)
    }

    fn leave(&mut self, thread: Thread) -> Result<(), refusal::ReturnCall> {
        self.return_call(thread).map(drop)
    }
}

impl Default for Guard {
    fn default() -> Guard {
        Guard::new()
    }
}
