//! The guard: a protection state (document 01: desk) and the calls.
//!
//! Users, segments and defined keys are never struck, so a number is a place in
//! a vector. Threads end and locks are dropped, so these are looked for by
//! number. Each call's method asks its conditions in the order of document 01's
//! table and then makes its change, so a refusal changes nothing.

mod key_search;
mod listing;
mod refusal;

pub use refusal::Refusal;

use crate::call::Call;
use crate::formula::{self, Literal, Product};
use crate::limits::{
    LOCK_NUMBERS, MAX_DEFINED_KEYS, MAX_FRAMES, MAX_LIST_KEYS, MAX_LIVE_THREADS,
    MAX_SEGMENT_PRODUCTS, MAX_SEGMENTS, MAX_USERS, THREAD_NUMBERS,
};
use crate::operations::{DENY, EXECUTE, READ, WRITE};
use crate::{Issued, Key, Kind};

/// A call's answer, or why it is refused.
pub type Answer = Result<u16, Refusal>;

/// A live thread (document 01: run).
#[derive(Clone, Debug, PartialEq, Eq)]
pub struct Thread {
    number: u16,
    user: u16,
    /// The open calls, the newest last.
    frames: Vec<Frame>,
}

/// An open call, and the keys that it hands over: the segment's own, and the
/// defined keys that were in the segment's list when it was made and weren't taken
/// since.
#[derive(Clone, Debug, PartialEq, Eq)]
struct Frame {
    segment: u16,
    defined: Vec<u16>,
}

impl Thread {
    /// Whether the key is in the thread's key set.
    pub fn holds(&self, key: Key) -> bool {
        let number = key.number;
        match key.kind {
            Kind::User => self.user == number,
            Kind::Thread => self.number == number,
            Kind::Segment => self.frames.iter().any(|frame| frame.segment == number),
            Kind::Defined => self
                .frames
                .iter()
                .any(|frame| frame.defined.contains(&number)),
        }
    }
}

#[derive(Clone, Copy, Debug, PartialEq, Eq)]
pub enum SegmentKind {
    Code,
    Sheet,
}

#[derive(Clone, Debug, PartialEq, Eq)]
pub struct Segment {
    owner: u16,
    kind: SegmentKind,
    /// The key list without the segment's own key, in the order of
    /// giving.
    defined: Vec<u16>,
    /// The standing locks, by rising number.
    locks: Vec<Lock>,
}

impl Segment {
    /// The operations that it takes.
    fn operations(&self) -> u16 {
        match self.kind {
            SegmentKind::Code => EXECUTE,
            SegmentKind::Sheet => READ | WRITE,
        }
    }

    /// The length of the key list.
    fn list_length(&self) -> usize {
        1 + self.defined.len()
    }

    fn products(&self) -> usize {
        self.locks.iter().map(|lock| lock.products.len()).sum()
    }
}

#[derive(Clone, Debug, PartialEq, Eq)]
struct Lock {
    number: u16,
    operations: u16,
    products: Vec<Product>,
}

impl Lock {
    fn denies(&self) -> bool {
        self.operations & DENY != 0
    }

    /// How many literals the longest of its products has that the thread opens;
    /// `None` where it opens none.
    fn longest_opened_by(&self, thread: &Thread) -> Option<usize> {
        let opens = |literal: &Literal| thread.holds(literal.key) != literal.barred;
        let products = self.products.iter().map(Product::literals);
        let opened = products.filter(|literals| literals.iter().all(opens));
        opened.map(<[Literal]>::len).max()
    }
}

/// Judges one operation of a thread on a segment: the grant lock whose longest
/// product that opens has the most literals, the lowest of equal ones, unless a deny
/// lock opens (document 02, P6).
pub fn check(thread: &Thread, segment: &Segment, operation: u16) -> Answer {
    let mut tightest = None;
    let mut most = 0;
    let standing = segment.locks.iter();
    for lock in standing.filter(|lock| lock.operations & operation != 0) {
        match lock.longest_opened_by(thread) {
            Some(_) if lock.denies() => return Err(Refusal::Denied(lock.number)),
            Some(longest) if longest > most => {
                most = longest;
                tightest = Some(lock.number);
            }
            _ => {}
        }
    }
    tightest.ok_or(Refusal::NotGranted)
}

/// A protection state. The empty one is [`Guard::new`].
#[derive(Clone, Debug, Default, PartialEq, Eq)]
pub struct Guard {
    /// How many users were handed out.
    users: usize,
    /// Each defined key's maker.
    makers: Vec<u16>,
    segments: Vec<Segment>,
    /// The live threads, by rising number.
    threads: Vec<Thread>,
    /// How many threads were ever started.
    threads_started: u32,
    /// How many locks were ever made.
    locks_made: u32,
}

impl Guard {
    pub fn new() -> Guard {
        Guard::default()
    }

    /// One call by its letter. What the call doesn't name must be 0, and a call
    /// without a text has none.
    pub fn call(&mut self, letter: u8, a: u16, b: u16, c: u16, text: &[u8]) -> Answer {
        match Call::of_parts(letter, [a, b, c], text).ok_or(Refusal::Corrupt)? {
            Call::NewUser => self.new_user(),
            Call::StartThread { user } => self.start_thread(user),
            Call::EndThread { thread } => self.end_thread(thread),
            Call::NewSegment { thread, kind } => self.new_segment(thread, kind),
            Call::NewKey { thread } => self.new_key(thread),
            Call::GiveKey {
                thread,
                segment,
                key,
            } => self.give_key(thread, segment, key),
            Call::TakeKey {
                thread,
                segment,
                key,
            } => self.take_key(thread, segment, key),
            Call::AddLock {
                thread,
                segment,
                operations,
                text,
            } => self.add_lock(thread, segment, operations, text),
            Call::DropLock { thread, lock } => self.drop_lock(thread, lock),
            Call::CallSegment { thread, segment } => self.call_segment(thread, segment),
            Call::ReturnCall { thread } => self.return_call(thread),
            Call::Access {
                thread,
                segment,
                operation,
            } => self.access(thread, segment, operation),
        }
    }

    /// U. Answers the user.
    pub fn new_user(&mut self) -> Answer {
        let user = self.users;
        below_limit(user, MAX_USERS)?;
        self.users += 1;
        Ok(user as u16)
    }

    /// S. Answers the thread.
    pub fn start_thread(&mut self, user: u16) -> Answer {
        self.known_user(user)?;
        below_limit(self.threads.len(), MAX_LIVE_THREADS)?;
        let number = next_number(self.threads_started, THREAD_NUMBERS)?;
        self.threads_started += 1;
        self.threads.push(Thread {
            number,
            user,
            frames: Vec::new(),
        });
        Ok(number)
    }

    /// E. Answers how many open calls it closes.
    pub fn end_thread(&mut self, thread: u16) -> Answer {
        let place = self.place_of_thread(thread)?;
        let ended = self.threads.remove(place);
        Ok(ended.frames.len() as u16)
    }

    /// N. Answers the segment.
    pub fn new_segment(&mut self, thread: u16, kind: u16) -> Answer {
        let user = self.editor(thread)?;
        let kind = match kind {
            0 => SegmentKind::Code,
            1 => SegmentKind::Sheet,
            _ => return Err(Refusal::Unfit),
        };
        let segment = self.segments.len();
        below_limit(segment, MAX_SEGMENTS)?;
        self.segments.push(Segment {
            owner: user,
            kind,
            defined: Vec::new(),
            locks: Vec::new(),
        });
        Ok(segment as u16)
    }

    /// K. Answers the defined key.
    pub fn new_key(&mut self, thread: u16) -> Answer {
        let user = self.editor(thread)?;
        let key = self.makers.len();
        below_limit(key, MAX_DEFINED_KEYS)?;
        self.makers.push(user);
        Ok(key as u16)
    }

    /// G. Answers how many keys are now in the segment's list.
    pub fn give_key(&mut self, thread: u16, segment: u16, key: u16) -> Answer {
        let user = self.editor(thread)?;
        self.known_segment(segment)?;
        let maker = self.maker_of(key)?;
        let segment = self.owned_segment(user, segment)?;
        if maker != user {
            return Err(Refusal::NotOwner);
        }
        if segment.defined.contains(&key) {
            return Err(Refusal::AlreadyPresent);
        }
        below_limit(segment.list_length(), MAX_LIST_KEYS)?;
        segment.defined.push(key);
        Ok(segment.list_length() as u16)
    }

    /// T. Answers how many keys are now in the segment's list. The key may be
    /// anyone's. It is withdrawn from the segment's open calls too (document 02, P5).
    pub fn take_key(&mut self, thread: u16, segment: u16, key: u16) -> Answer {
        let user = self.editor(thread)?;
        self.known_segment(segment)?;
        self.maker_of(key)?;
        let owned = self.owned_segment(user, segment)?;
        let place = owned.defined.iter().position(|given| *given == key);
        let place = place.ok_or(Refusal::NotPresent)?;
        owned.defined.remove(place);
        let left = owned.list_length();
        self.withdraw(segment, key);
        Ok(left as u16)
    }

    /// L. Answers the lock.
    pub fn add_lock(&mut self, thread: u16, segment: u16, operations: u16, text: &[u8]) -> Answer {
        let user = self.editor(thread)?;
        self.known_segment(segment)?;
        let issued = self.issued();
        let number = next_number(self.locks_made, LOCK_NUMBERS);
        let segment = self.owned_segment(user, segment)?;
        let taken = segment.operations();
        if operations & !(taken | DENY) != 0 || operations & taken == 0 {
            return Err(Refusal::Unfit);
        }
        let products = formula::compile(text, &issued)?;
        if segment.products() + products.len() > MAX_SEGMENT_PRODUCTS {
            return Err(Refusal::Full);
        }
        let number = number?;
        segment.locks.push(Lock {
            number,
            operations,
            products,
        });
        self.locks_made += 1;
        Ok(number)
    }

    /// D. Answers how many products it removes.
    pub fn drop_lock(&mut self, thread: u16, lock: u16) -> Answer {
        let user = self.editor(thread)?;
        let (segment, place) = self.place_of_lock(lock)?;
        let segment = self.owned_segment(user, segment)?;
        let dropped = segment.locks.remove(place);
        Ok(dropped.products.len() as u16)
    }

    /// C. Answers the tightest lock that opened.
    pub fn call_segment(&mut self, thread: u16, segment: u16) -> Answer {
        let place = self.place_of_thread(thread)?;
        let called = self.known_segment(segment)?;
        if called.kind != SegmentKind::Code {
            return Err(Refusal::Unfit);
        }
        let lock = check(&self.threads[place], called, EXECUTE)?;
        below_limit(self.threads[place].frames.len(), MAX_FRAMES)?;
        let defined = called.defined.clone();
        self.threads[place].frames.push(Frame { segment, defined });
        Ok(lock)
    }

    /// R. Answers the segment that is left.
    pub fn return_call(&mut self, thread: u16) -> Answer {
        let place = self.place_of_thread(thread)?;
        let newest = self.threads[place].frames.pop();
        Ok(newest.ok_or(Refusal::NotPresent)?.segment)
    }

    /// A. Answers the tightest lock that opened.
    pub fn access(&self, thread: u16, segment: u16, operation: u16) -> Answer {
        let thread = self.thread(thread)?;
        let segment = self.known_segment(segment)?;
        if ![READ, WRITE].contains(&operation) || segment.operations() & operation == 0 {
            return Err(Refusal::Unfit);
        }
        check(thread, segment, operation)
    }

    /// Who edits by a thread: its user, where it is live.
    fn editor(&self, thread: u16) -> Result<u16, Refusal> {
        Ok(self.thread(thread)?.user)
    }

    /// A live thread.
    pub fn thread(&self, number: u16) -> Result<&Thread, Refusal> {
        Ok(&self.threads[self.place_of_thread(number)?])
    }

    /// A segment that is handed out.
    pub fn known_segment(&self, number: u16) -> Result<&Segment, Refusal> {
        let segment = self.segments.get(usize::from(number));
        segment.ok_or(Refusal::NoSegment)
    }

    /// How many keys of each kind were handed out; an ended thread's may still
    /// be named.
    fn issued(&self) -> Issued {
        Issued {
            users: self.users as u32,
            threads: self.threads_started,
            segments: self.segments.len() as u32,
            defined: self.makers.len() as u32,
        }
    }

    fn known_user(&self, user: u16) -> Result<(), Refusal> {
        if usize::from(user) < self.users {
            Ok(())
        } else {
            Err(Refusal::UnknownUser)
        }
    }

    fn maker_of(&self, key: u16) -> Result<u16, Refusal> {
        let maker = self.makers.get(usize::from(key));
        maker.copied().ok_or(Refusal::NoKey)
    }

    /// The segment, where it is this user's.
    fn owned_segment(&mut self, user: u16, segment: u16) -> Result<&mut Segment, Refusal> {
        let segment = &mut self.segments[usize::from(segment)];
        if segment.owner == user {
            Ok(segment)
        } else {
            Err(Refusal::NotOwner)
        }
    }

    /// Withdraws a defined key from every open call of a segment, whoever's the
    /// thread is.
    fn withdraw(&mut self, segment: u16, key: u16) {
        let frames = self.threads.iter_mut().flat_map(|of| &mut of.frames);
        for frame in frames.filter(|frame| frame.segment == segment) {
            frame.defined.retain(|handed_over| *handed_over != key);
        }
    }

    fn place_of_thread(&self, number: u16) -> Result<usize, Refusal> {
        self.threads
            .binary_search_by_key(&number, |thread| thread.number)
            .map_err(|_| Refusal::NoThread)
    }

    /// The segment that a standing lock is on, and its place there.
    fn place_of_lock(&self, number: u16) -> Result<(u16, usize), Refusal> {
        for (segment, on) in self.segments.iter().enumerate() {
            if let Some(place) = on.locks.iter().position(|lock| lock.number == number) {
                return Ok((segment as u16, place));
            }
        }
        Err(Refusal::NoLock)
    }
}

fn below_limit(count: usize, limit: usize) -> Result<(), Refusal> {
    if count < limit {
        Ok(())
    } else {
        Err(Refusal::Full)
    }
}

/// The number that follows this many, of so many in all.
fn next_number(count: u32, numbers: u32) -> Result<u16, Refusal> {
    if count < numbers {
        Ok(count as u16)
    } else {
        Err(Refusal::Full)
    }
}
