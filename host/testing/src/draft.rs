//! A list of calls that is drawn to some end, as far as it is made, with what stands
//! after it.

use crate::calls::{call, lock, told};
use crate::random::Random;
use reference::guard::{Answer, Guard};
use reference::history::{History, Segment};
use reference::journal::Record;
use reference::letter::Letter;

/// The most calls that a thread makes at once.
const MOST_CALLS: usize = 6;

pub(crate) struct Draft<'a> {
    pub random: &'a mut Random,
    pub history: History,
    guard: Guard,
    list: Vec<Record>,
}

impl<'a> Draft<'a> {
    /// An empty list.
    pub fn new(random: &'a mut Random) -> Draft<'a> {
        Draft {
            random,
            history: History::new(),
            guard: Guard::new(),
            list: Vec::new(),
        }
    }

    pub fn into_list(self) -> Vec<Record> {
        self.list
    }

    /// A call that can't be refused.
    pub fn made(&mut self, record: Record) -> u16 {
        let answer = self.call(record);
        answer.expect("there is room for it")
    }

    pub fn call(&mut self, record: Record) -> Answer {
        let answer = told(&mut self.guard, &mut self.history, &record);
        self.list.push(record);
        answer
    }

    pub fn segment(&mut self, owner: u16, kind: u16, locks: &[(u16, String)]) -> u16 {
        let editor = self.thread_of(owner);
        let segment = self.made(call(Letter::NewSegment, editor, kind, 0));
        for (operations, text) in locks {
            self.made(lock(editor, segment, *operations, text.as_bytes()));
        }
        segment
    }

    pub fn live(&self) -> Vec<u16> {
        self.history.live_threads().collect()
    }

    pub fn thread(&mut self) -> u16 {
        let live = self.live();
        self.random.pick(&live)
    }

    /// A live thread of this user, which is started where there is none.
    pub fn thread_of(&mut self, user: u16) -> u16 {
        let mut threads = self.live();
        threads.retain(|thread| self.history.editor(*thread) == Some(user));
        match threads.as_slice() {
            [] => self.made(call(Letter::StartThread, user, 0, 0)),
            threads => self.random.pick(threads),
        }
    }

    pub fn editor_of(&mut self, segment: u16) -> u16 {
        let owner = self.told_of(segment).owner;
        self.thread_of(owner)
    }

    pub fn told_of(&self, segment: u16) -> &Segment {
        let segment = self.history.segment(segment);
        segment.expect("it is handed out")
    }

    /// A thread calls one of these segments.
    pub fn call_segment(&mut self, code: &[u16]) {
        let thread = self.thread();
        self.call_by(thread, code);
    }

    fn call_by(&mut self, thread: u16, code: &[u16]) {
        let segment = self.random.pick(code);
        let _ = self.call(call(Letter::CallSegment, thread, segment, 0));
    }

    /// The oldest thread calls on and on.
    pub fn descend(&mut self, code: &[u16]) {
        let oldest = self.live()[0];
        for _ in 0..self.random.between(1, MOST_CALLS) {
            self.call_by(oldest, code);
        }
    }

    pub fn return_call(&mut self) {
        let thread = self.thread();
        let _ = self.call(call(Letter::ReturnCall, thread, 0, 0));
    }

    /// A thread starts, or one ends where so many are live. Answers which has ended.
    pub fn come_or_go(&mut self, most: usize) -> Option<u16> {
        if self.live().len() < most {
            let users = self.history.issued().users as usize;
            let user = self.random.below(users) as u16;
            let _ = self.call(call(Letter::StartThread, user, 0, 0));
            return None;
        }
        let thread = self.thread();
        let _ = self.call(call(Letter::EndThread, thread, 0, 0));
        Some(thread)
    }
}
