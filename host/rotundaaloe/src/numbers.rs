//! The numbers that the guard hands out, a type for each kind, so that a thread
//! can't be passed where a segment is meant. The field is public: a host may
//! store a number and make it again.

use std::fmt;

macro_rules! numbers {
    ($($(#[$attribute:meta])* $name:ident shown $prefix:literal;)*) => {$(
        $(#[$attribute])*
        #[derive(Clone, Copy, Debug, PartialEq, Eq, PartialOrd, Ord, Hash)]
        pub struct $name(pub u16);

        impl fmt::Display for $name {
            fn fmt(&self, f: &mut fmt::Formatter) -> fmt::Result {
                write!(f, concat!($prefix, "{}"), self.0)
            }
        }

        numbered!($name);
    )*};
}

/// Into a field of a record and back.
macro_rules! numbered {
    ($name:ident) => {
        impl From<u16> for $name {
            fn from(number: u16) -> $name {
                $name(number)
            }
        }

        impl From<$name> for u16 {
            fn from(name: $name) -> u16 {
                name.0
            }
        }
    };
}

numbers! {
    /// A user. Shown as its key in a formula text, `U0`.
    User shown "U";
    /// A thread (document 01: run). Shown as its key, `R0`.
    Thread shown "R";
    /// A segment, code or sheet. Shown as its key, `S0`.
    Segment shown "S";
    /// A key that a user made. Shown as in a formula text, `D0`.
    Defined shown "D";
    /// A lock.
    Lock shown "lock ";
}

/// What a segment is.
#[derive(Clone, Copy, Debug, PartialEq, Eq)]
pub enum Kind {
    /// It is called.
    Code = 0,
    /// It is read and written.
    Sheet = 1,
}

/// What an access does.
#[derive(Clone, Copy, Debug, PartialEq, Eq)]
pub enum Access {
    Read = Operations::READ.0 as isize,
    Write = Operations::WRITE.0 as isize,
}

/// A lock's operations, and whether it grants or denies them.
#[derive(Clone, Copy, Debug, PartialEq, Eq)]
pub struct Operations(pub u16);

numbered!(Operations);

impl Operations {
    pub const EXECUTE: Operations = Operations(1);
    pub const READ: Operations = Operations(2);
    pub const WRITE: Operations = Operations(4);

    /// Those of both.
    pub const fn and(self, other: Operations) -> Operations {
        Operations(self.0 | other.0)
    }

    /// The same operations, denied.
    pub const fn denied(self) -> Operations {
        Operations(self.0 | 8)
    }
}
