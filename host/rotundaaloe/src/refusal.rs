//! Why a call is refused. [`Refusal`] has all of document 01's table, with what
//! document 02 adds to it; each call has an enum of its own with just the refusals
//! that it can give, so that a host's `match` needs no arm for what can't happen.
//! Each becomes a [`Refusal`] by `?` or `into`.

use crate::numbers::Lock;
use std::error::Error;
use std::fmt;

macro_rules! refusals {
    ($(
        $(#[$attribute:meta])*
        $name:ident $(($field:ident))? = $number:literal $word:literal;
    )*) => {
        /// Why something is refused, in the order of document 01's table.
        #[derive(Clone, Copy, Debug, PartialEq, Eq)]
        pub enum Refusal {
            $($(#[$attribute])* $name $(($field))?,)*
        }

        impl Refusal {
            /// The refusal with this number in document 01's table, and this
            /// second number.
            pub(crate) fn of(number: u32, second: u16) -> Refusal {
                match number {
                    $($number => Refusal::$name $(($field(second)))?,)*
                    _ => unreachable!("the guard's contract has no refusal {number}"),
                }
            }

            /// The number in document 01's table.
            pub const fn number(self) -> u32 {
                match self {
                    $(Refusal::$name { .. } => $number,)*
                }
            }

            /// The word in document 01's table.
            pub const fn word(self) -> &'static str {
                match self {
                    $(Refusal::$name { .. } => $word,)*
                }
            }
        }
    };
}

refusals! {
    /// The user isn't handed out.
    UnknownUser = 1 "stranger";
    /// The thread was not started, or has ended.
    NoThread = 2 "no run";
    /// The segment isn't handed out.
    NoSegment = 3 "no segment";
    /// The defined key isn't handed out.
    NoKey = 4 "no key";
    /// The lock was never made, or is dropped.
    NoLock = 5 "no lock";
    /// The segment, or in G the key, is another's.
    NotOwner = 6 "not yours";
    /// An operation that the segment doesn't take, or no known one.
    Unfit = 7 "unfit";
    /// The key is in the list.
    AlreadyPresent = 8 "already in";
    /// The key isn't in the list, or no call is open.
    NotPresent = 9 "not there";
    /// A limit would be passed. Judged last.
    Full = 10 "full";
    /// The text isn't in the grammar, or a key in it isn't handed out.
    Malformed = 11 "misspelt";
    /// Some node of the formula doesn't fit.
    TooWide = 12 "too wide";
    /// No key set opens the formula.
    Unsatisfiable = 13 "void";
    /// A deny lock opens: the lowest one.
    Denied(Lock) = 14 "barred";
    /// No grant lock opens, nor a deny lock.
    NotGranted = 15 "no way in";
    /// The file doesn't begin with the mark.
    NotJournal = 16 "not a desk file";
    /// The file's version isn't 2.
    OtherVersion = 17 "other version";
    /// The file, or a call handed straight to the guard, has no known shape.
    Corrupt = 18 "broken file";
    /// Fewer rows are lent than this user's lock list needs.
    TooFewRows = 19 "too few rows";
}

impl Refusal {
    /// The second number: the lock that denies, else 0.
    pub fn second(self) -> u16 {
        match self {
            Refusal::Denied(Lock(lock)) => lock,
            _ => 0,
        }
    }
}

impl fmt::Display for Refusal {
    fn fmt(&self, f: &mut fmt::Formatter) -> fmt::Result {
        write!(f, "{} ({}", self.word(), self.number())?;
        match self {
            Refusal::Denied(lock) => write!(f, ", {lock})"),
            _ => write!(f, ")"),
        }
    }
}

impl Error for Refusal {}

/// An enum of some of the refusals, as one of the guard's functions gives them.
macro_rules! some_of_them {
    ($($(#[$attribute:meta])* $name:ident { $($case:ident $(($lock:ident))?),* })*) => {$(
        $(#[$attribute])*
        #[derive(Clone, Copy, Debug, PartialEq, Eq)]
        pub enum $name {
            $($case $((some_of_them!(@type $lock)))?,)*
        }

        impl From<$name> for Refusal {
            fn from(refusal: $name) -> Refusal {
                match refusal {
                    $($name::$case $(($lock))? => Refusal::$case $(($lock))?,)*
                }
            }
        }

        impl $name {
            pub(crate) fn of(refusal: Refusal) -> $name {
                match refusal {
                    $(Refusal::$case $(($lock))? => $name::$case $(($lock))?,)*
                    #[allow(unreachable_patterns)]
                    other => unreachable!("this function's contract has no refusal {other}"),
                }
            }
        }

        impl fmt::Display for $name {
            fn fmt(&self, f: &mut fmt::Formatter) -> fmt::Result {
                Refusal::from(*self).fmt(f)
            }
        }

        impl Error for $name {}
    )*};
    (@type $lock:ident) => { Lock };
}

some_of_them! {
    /// Why [`Guard::new_user`](crate::Guard::new_user) is refused.
    NewUser { Full }
    /// Why [`Guard::start_thread`](crate::Guard::start_thread) is refused.
    StartThread { UnknownUser, Full }
    /// Why [`Guard::end_thread`](crate::Guard::end_thread) is refused.
    EndThread { NoThread }
    /// Why [`Guard::new_segment`](crate::Guard::new_segment) is refused.
    NewSegment { NoThread, Full }
    /// Why [`Guard::new_key`](crate::Guard::new_key) is refused.
    NewKey { NoThread, Full }
    /// Why [`Guard::give_key`](crate::Guard::give_key) is refused.
    GiveKey { NoThread, NoSegment, NoKey, NotOwner, AlreadyPresent, Full }
    /// Why [`Guard::take_key`](crate::Guard::take_key) is refused.
    TakeKey { NoThread, NoSegment, NoKey, NotOwner, NotPresent }
    /// Why [`Guard::add_lock`](crate::Guard::add_lock) is refused.
    AddLock { NoThread, NoSegment, NotOwner, Unfit, Malformed, TooWide, Unsatisfiable, Full }
    /// Why [`Guard::drop_lock`](crate::Guard::drop_lock) is refused.
    DropLock { NoThread, NoLock, NotOwner }
    /// Why [`Guard::call_segment`](crate::Guard::call_segment) is refused.
    CallSegment { NoThread, NoSegment, Unfit, Denied(lock), NotGranted, Full }
    /// Why [`Guard::return_call`](crate::Guard::return_call) is refused.
    ReturnCall { NoThread, NotPresent }
    /// Why [`Guard::access`](crate::Guard::access) is refused.
    Access { NoThread, NoSegment, Unfit, Denied(lock), NotGranted }
    /// Why [`Guard::locks`](crate::Guard::locks) is refused.
    Locks { UnknownUser, NoSegment }
    /// Why [`Guard::list_locks`](crate::Guard::list_locks) is refused.
    ListLocks { UnknownUser, NoSegment, TooFewRows }
    /// Why [`Guard::find_key`](crate::Guard::find_key) is refused.
    FindKey { NoThread }
    /// Why [`formula::compile`](crate::formula::compile) is refused.
    Compile { Malformed, TooWide, Unsatisfiable }
    /// Why [`Journal::from_bytes`](crate::Journal::from_bytes) and
    /// [`Records::open`](crate::journal::Records::open) are refused.
    Read { NotJournal, OtherVersion, Corrupt }
    /// Why [`Journal::append`](crate::Journal::append) is refused.
    Append { Full, Corrupt }
}

/// Why [`Guard::from_bytes`](crate::Guard::from_bytes) is refused. The numbers
/// are those of the refusals of a journal, the words a state file's own.
#[derive(Clone, Copy, Debug, PartialEq, Eq)]
pub enum Load {
    /// The file doesn't begin with the mark.
    NotState = 16,
    /// Its cells are laid out in another way, as by another version.
    OtherLayout = 17,
    /// It is cut short, goes on, or some of its bits have changed.
    Broken = 18,
}

impl Load {
    /// The number in document 01's table.
    pub const fn number(self) -> u32 {
        self as u32
    }

    pub const fn word(self) -> &'static str {
        match self {
            Load::NotState => "not a state file",
            Load::OtherLayout => "another layout",
            Load::Broken => "broken state file",
        }
    }
}

impl fmt::Display for Load {
    fn fmt(&self, f: &mut fmt::Formatter) -> fmt::Result {
        write!(f, "{} ({})", self.word(), self.number())
    }
}

impl Error for Load {}
