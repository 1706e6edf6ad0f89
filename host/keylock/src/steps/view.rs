//! Where a thread and a segment stand after a call.

use super::kept::Taken;
use super::listing::{self, Lists};
use super::state::{Loss, State, keys};
use reference::history;
use rotundaaloe::formula::{self, Key};
use rotundaaloe::{Call, Guard, Record, Refusal, Segment, Thread, User};

/// A thread after a call.
#[derive(Clone, Debug)]
pub struct ThreadView {
    pub number: u16,
    /// By its name, if it has one: `the May closing (thread 0)`.
    pub said: String,
    pub user: u16,
    pub user_said: String,
    /// Its open calls, the newest last. Empty for a thread that has ended.
    pub calls: Vec<OpenCall>,
    pub change: Change,
    /// Its key set, in order.
    pub keys: Vec<Key>,
}

/// An open call, and the keys that it hands over.
#[derive(Clone, Debug, PartialEq, Eq)]
pub struct OpenCall {
    pub segment: u16,
    pub said: String,
    pub keys: Vec<Key>,
    /// The keys that it handed over at first and that were taken since, the first
    /// taken first.
    pub taken: Vec<Taken>,
}

/// What the call did to the thread.
#[derive(Clone, Debug, PartialEq, Eq)]
pub enum Change {
    Nothing,
    Started,
    /// The newest open call is the call's.
    Called,
    /// This call is no longer open.
    Left(OpenCall),
    /// The thread is no longer live, nor are these calls open.
    Ended(Vec<OpenCall>),
}

/// A segment after a call.
#[derive(Clone, Debug)]
pub struct SegmentView {
    pub number: u16,
    pub said: String,
    pub owner_said: String,
    pub sheet: bool,
    /// Its key list.
    pub keys: Vec<Key>,
    /// Its standing locks, by rising number.
    pub locks: Vec<Lock>,
    pub lists: Lists,
}

/// A standing lock.
#[derive(Clone, Debug)]
pub struct Lock {
    pub number: u16,
    pub operations: u16,
    pub text: Vec<u8>,
    pub products: Vec<formula::Product>,
}

impl Lock {
    pub fn denies(&self) -> bool {
        self.operations & 8 == 8
    }
}

/// A segment's standing locks for any of the operations, by rising number.
pub fn locks(state: &State, segment: Segment, operations: u16) -> Vec<Lock> {
    let standing = state.history.standing();
    let there = standing
        .filter(|(_, lock)| lock.segment == segment.0 && lock.operations & operations & 7 != 0);
    let lock = |(number, lock): (u16, &history::Lock)| {
        let formula = state.kept.formula(number);
        Lock {
            number,
            operations: lock.operations,
            text: formula.text.clone(),
            products: formula.products.clone(),
        }
    };
    there.map(lock).collect()
}

/// What a call concerns.
pub enum Concern {
    Nothing,
    /// A thread, and what the call does to it.
    Thread(Thread, Change),
    Segment(Segment),
}

/// What an answered call concerns. Asked before the call is taken in.
pub fn concern(state: &State, record: &Record, answer: Result<u16, Refusal>) -> Concern {
    let Some(call) = Call::of(record) else {
        return Concern::Nothing;
    };
    let changed = |thread: Thread, change: Change| match answer {
        Ok(_) => Concern::Thread(thread, change),
        Err(_) => Concern::Thread(thread, Change::Nothing),
    };
    match call {
        Call::NewUser | Call::NewKey { .. } => Concern::Nothing,
        Call::StartThread { .. } => match answer {
            Ok(number) => Concern::Thread(Thread(number), Change::Started),
            Err(_) => Concern::Nothing,
        },
        Call::CallSegment { thread, .. } => changed(thread, Change::Called),
        Call::ReturnCall { thread } => {
            let left = open_calls(state, thread).pop();
            changed(thread, left.map_or(Change::Nothing, Change::Left))
        }
        Call::EndThread { thread } => changed(thread, Change::Ended(open_calls(state, thread))),
        Call::Access { thread, .. } => Concern::Thread(thread, Change::Nothing),
        Call::NewSegment { .. } => {
            answer.map_or(Concern::Nothing, |number| Concern::Segment(Segment(number)))
        }
        Call::GiveKey { segment, .. }
        | Call::TakeKey { segment, .. }
        | Call::AddLock { segment, .. } => Concern::Segment(segment),
        Call::DropLock { lock, .. } => match state.standing(lock) {
            Some(lock) => Concern::Segment(Segment(lock.segment)),
            None => Concern::Nothing,
        },
    }
}

/// The threads whose open calls lost a key by a call. Asked after the call is taken
/// in.
pub fn losing(state: &State, losses: &[Loss]) -> Vec<ThreadView> {
    let mut threads: Vec<Thread> = losses.iter().map(|loss| loss.thread).collect();
    threads.dedup();
    let threads = threads.into_iter();
    threads
        .filter_map(|losing| thread(state, losing, Change::Nothing))
        .collect()
}

/// A live thread's open calls, the newest last.
fn open_calls(state: &State, thread: Thread) -> Vec<OpenCall> {
    let calls = state.open_calls(thread).iter().enumerate();
    let calls = calls.map(|(older, call)| OpenCall {
        segment: call.segment,
        said: state.said(Segment(call.segment)),
        keys: keys(&call.list),
        taken: state.kept.taken_from(thread, older).to_vec(),
    });
    calls.collect()
}

/// A thread that a call concerns. Asked after the call is taken in.
pub fn thread(state: &State, thread: Thread, change: Change) -> Option<ThreadView> {
    let user = match change {
        Change::Ended(_) => state.kept.user_of(thread)?,
        _ => User(state.history.thread(thread.0)?.user),
    };
    Some(ThreadView {
        number: thread.0,
        said: state.said(thread),
        user: user.0,
        user_said: state.said(user),
        calls: open_calls(state, thread),
        change,
        keys: state.key_set(thread),
    })
}

/// A segment that is handed out. Asked after the call is taken in.
pub fn segment(state: &State, guard: &Guard, segment: Segment) -> Option<SegmentView> {
    let kept = state.history.segment(segment.0)?;
    let owner = User(kept.owner);
    Some(SegmentView {
        number: segment.0,
        said: state.said(segment),
        owner_said: state.said(owner),
        sheet: kept.sheet,
        keys: keys(&kept.list),
        locks: locks(state, segment, 7),
        lists: listing::of(guard, owner, segment),
    })
}
