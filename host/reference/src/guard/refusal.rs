//! Why the guard refuses a call, a listing or a key search, and document 01's
//! numbers for it.

/// Why a call, a listing or a key search is refused, in the order of document
/// 01's table, with what document 02 adds to it.
#[derive(Clone, Copy, Debug, PartialEq, Eq)]
pub enum Refusal {
    /// Document 01: stranger.
    UnknownUser,
    /// Document 01: no run.
    NoThread,
    NoSegment,
    NoKey,
    NoLock,
    /// Document 01: not yours.
    NotOwner,
    Unfit,
    /// Document 01: already in.
    AlreadyPresent,
    /// Document 01: not there.
    NotPresent,
    /// Comes last.
    Full,
    /// Document 01: misspelt.
    Malformed,
    TooWide,
    /// Document 01: void.
    Unsatisfiable,
    /// Document 01: barred; by this lock.
    Denied(u16),
    /// Document 01: no way in.
    NotGranted,
    /// Document 01: broken file. A call of no known shape; comes first.
    Corrupt,
    /// A listing's alone: fewer are lent than this user needs.
    TooFewRows,
}

impl Refusal {
    /// The number in document 01's table.
    pub fn number(self) -> u32 {
        match self {
            Refusal::UnknownUser => 1,
            Refusal::NoThread => 2,
            Refusal::NoSegment => 3,
            Refusal::NoKey => 4,
            Refusal::NoLock => 5,
            Refusal::NotOwner => 6,
            Refusal::Unfit => 7,
            Refusal::AlreadyPresent => 8,
            Refusal::NotPresent => 9,
            Refusal::Full => 10,
            Refusal::Malformed => 11,
            Refusal::TooWide => 12,
            Refusal::Unsatisfiable => 13,
            Refusal::Denied(_) => 14,
            Refusal::NotGranted => 15,
            Refusal::Corrupt => 18,
            Refusal::TooFewRows => 19,
        }
    }

    /// The second number: the lock that denies, else 0.
    pub fn second(self) -> u16 {
        match self {
            Refusal::Denied(lock) => lock,
            _ => 0,
        }
    }
}

impl From<crate::Refusal> for Refusal {
    fn from(refusal: crate::Refusal) -> Refusal {
        match refusal {
            crate::Refusal::Malformed => Refusal::Malformed,
            crate::Refusal::TooWide => Refusal::TooWide,
            crate::Refusal::Unsatisfiable => Refusal::Unsatisfiable,
        }
    }
}
