//! A guard that keeps a journal of what it is asked.

use crate::guard::Guard;
use crate::journal::{Journal, Record};
use crate::numbers::{Access, Defined, Kind, Lock, Operations, Segment, Thread, User};
use crate::refusal::{self, Refusal};
use crate::scope::{self, Enter};

/// A guard and the journal of its calls, from the empty state on. Each call is
/// asked first and then appended, with the answers and refusals that
/// [`Guard`] gives.
///
/// A journal that can't take a call never keeps a host from asking; what it
/// lacks is told by [`missing`](Recorder::missing). A call that was refused is
/// left out, and the journal goes on: it changed nothing, so what follows replays
/// the same, and an L with a text that no record can hold doesn't end the journal
/// of a whole office. An accepted call that is not in the journal ends it, since
/// what follows would not replay the same: nothing more is appended.
#[derive(Clone, Debug, Default, PartialEq, Eq)]
pub struct Recorder {
    guard: Guard,
    journal: Journal,
    /// How many calls were asked.
    asked: u64,
    missing: Option<Missing>,
}

/// What a recorder's journal lacks.
#[derive(Clone, Copy, Debug, PartialEq, Eq)]
pub struct Missing {
    /// How many calls are not in it.
    pub calls: u64,
    /// The first one's place among all calls, from 0.
    pub first: u64,
    /// Why the first one is not in it.
    pub refusal: refusal::Append,
    /// Whether one of them was accepted, so that nothing after it is in the
    /// journal, and the journal's end is not the guard's state.
    pub ended: bool,
}

impl Recorder {
    /// The guard in the empty state, and the journal without records.
    pub fn new() -> Recorder {
        Recorder::default()
    }

    /// Goes on with a journal: the guard is in the state that its calls leave.
    pub fn replay(journal: Journal) -> Recorder {
        let mut guard = Guard::new();
        let mut asked = 0;
        for record in journal.records() {
            // A refusal was the answer when it was recorded, too.
            let _ = guard.call(record);
            asked += 1;
        }
        Recorder {
            guard,
            journal,
            asked,
            missing: None,
        }
    }

    pub fn guard(&self) -> &Guard {
        &self.guard
    }

    pub fn journal(&self) -> &Journal {
        &self.journal
    }

    /// What the journal lacks: nothing, while it has every call that was asked.
    pub fn missing(&self) -> Option<Missing> {
        self.missing
    }

    /// The guard to go on with and the journal to be kept, each by itself.
    pub fn into_parts(self) -> (Guard, Journal) {
        (self.guard, self.journal)
    }

    /// Any call, as [`Guard::call`].
    pub fn call<'a>(&mut self, call: impl Into<Record<'a>>) -> Result<u16, Refusal> {
        let record = call.into();
        let answer = self.guard.call(record);
        self.append(record, answer.is_ok());
        answer
    }

    /// Calls the segment, runs the body and returns, as [`Guard::within`]. The
    /// journal has the C and the R's.
    pub fn within<T>(
        &mut self,
        thread: Thread,
        segment: Segment,
        body: impl FnOnce(&mut Recorder) -> T,
    ) -> Result<T, refusal::CallSegment> {
        scope::within(self, thread, segment, body)
    }

    fn append(&mut self, record: Record, accepted: bool) {
        let place = self.asked;
        self.asked += 1;
        let ended = self.missing.is_some_and(|missing| missing.ended);
        let refused = match ended {
            true => Err(refusal::Append::Full),
            false => self.journal.append(record),
        };
        if let Err(refusal) = refused {
            let missing = self.missing.get_or_insert(Missing {
                calls: 0,
                first: place,
                refusal,
                ended: false,
            });
            missing.calls += 1;
            missing.ended |= accepted;
        }
    }
}

impl Enter for Recorder {
    fn depth(&self, thread: Thread) -> Option<usize> {
        self.guard.depth(thread)
    }

    fn enter(&mut self, thread: Thread, segment: Segment) -> Result<(), refusal::CallSegment> {
        self.call_segment(thread, segment).map(drop)
    }

    fn leave(&mut self, thread: Thread) -> Result<(), refusal::ReturnCall> {
        self.return_call(thread).map(drop)
    }
}

macro_rules! recorded {
    ($($name:ident($($field:ident: $type:ty),*) -> $answer:ty, $refusal:ident;)*) => {
        /// The twelve calls. Each is asked as the guard's function of that name.
        impl Recorder {
            $(
                #[doc = concat!("As [`Guard::", stringify!($name), "`].")]
                pub fn $name(
                    &mut self,
                    $($field: $type),*
                ) -> Result<$answer, refusal::$refusal> {
                    let answer = self.guard.$name($($field),*);
                    self.append(Record::$name($($field),*), answer.is_ok());
                    answer
                }
            )*
        }
    };
}

recorded! {
    new_user() -> User, NewUser;
    start_thread(user: User) -> Thread, StartThread;
    end_thread(thread: Thread) -> u16, EndThread;
    new_segment(thread: Thread, kind: Kind) -> Segment, NewSegment;
    new_key(thread: Thread) -> Defined, NewKey;
    give_key(thread: Thread, segment: Segment, key: Defined) -> u16, GiveKey;
    take_key(thread: Thread, segment: Segment, key: Defined) -> u16, TakeKey;
    add_lock(thread: Thread, segment: Segment, operations: Operations, text: &str) -> Lock, AddLock;
    drop_lock(thread: Thread, lock: Lock) -> u16, DropLock;
    call_segment(thread: Thread, segment: Segment) -> Lock, CallSegment;
    return_call(thread: Thread) -> Segment, ReturnCall;
    access(thread: Thread, segment: Segment, access: Access) -> Lock, Access;
}
