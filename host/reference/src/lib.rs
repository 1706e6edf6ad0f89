//! A second guard, in plain Rust, to compare the proved one with.
//!
//! It is written from documents 01 and 02 (docs/DECISIONS.md, 49). It shares no
//! code and no tables with the proved guard, and where one can choose it takes
//! another road: sets and vectors, a tree on the heap, no fixed arrays. Obvious
//! comes before fast.
//!
//! Two layers know nothing of each other: [`formula`], from a formula text to a
//! sum of products, and [`journal`], the file of call records. Over the first
//! stands the [`guard`], and [`replay`] joins the two. The [`history`] is a second
//! opinion on what a guard grants, lists and finds, read from calls and answers
//! alone.
//!
//! All of them know a [`call`] by its [`letter`], the [`operations`] by their
//! numbers, and the same [`limits`]. A [`listing`] has rows, which guard and history
//! make each by itself.

pub mod call;
pub mod formula;
pub mod guard;
pub mod history;
pub mod journal;
pub mod letter;
pub mod limits;
pub mod listing;
pub mod operations;
mod replay;
mod table;

pub use replay::replay;

/// What a key stands for. The order is the order of a product's keys.
#[derive(Clone, Copy, Debug, PartialEq, Eq, PartialOrd, Ord)]
pub enum Kind {
    User,
    /// Document 01: run.
    Thread,
    Segment,
    /// Made by a user.
    Defined,
}

impl Kind {
    pub const ALL: [Kind; 4] = [Kind::User, Kind::Thread, Kind::Segment, Kind::Defined];

    /// The letter that a formula text uses.
    pub fn letter(self) -> u8 {
        match self {
            Kind::User => b'U',
            Kind::Thread => b'R',
            Kind::Segment => b'S',
            Kind::Defined => b'D',
        }
    }
}

/// A kind with a 16-bit number. Keys are ordered by kind, then by number.
#[derive(Clone, Copy, Debug, PartialEq, Eq, PartialOrd, Ord)]
pub struct Key {
    pub kind: Kind,
    pub number: u16,
}

/// How many keys of each kind were handed out. The numbers rise from 0, so
/// those below the count were handed out.
#[derive(Clone, Copy, Debug, PartialEq, Eq)]
pub struct Issued {
    pub users: u32,
    pub threads: u32,
    pub segments: u32,
    pub defined: u32,
}

impl Issued {
    /// Every key that a text can name.
    pub const ALL: Issued = Issued {
        users: 65_536,
        threads: 65_536,
        segments: 65_536,
        defined: 65_536,
    };

    pub fn count(&self, kind: Kind) -> u32 {
        match kind {
            Kind::User => self.users,
            Kind::Thread => self.threads,
            Kind::Segment => self.segments,
            Kind::Defined => self.defined,
        }
    }

    pub fn contains(&self, key: Key) -> bool {
        u32::from(key.number) < self.count(key.kind)
    }
}

/// Why a formula text is refused. The order is the order of judgement, each
/// over the whole text before the next.
#[derive(Clone, Copy, Debug, PartialEq, Eq)]
pub enum Refusal {
    /// Document 01: misspelt.
    Malformed,
    /// Document 01: too wide.
    TooWide,
    /// Document 01: void.
    Unsatisfiable,
}

impl Refusal {
    /// The number in document 01's table.
    pub fn number(self) -> u32 {
        match self {
            Refusal::Malformed => 11,
            Refusal::TooWide => 12,
            Refusal::Unsatisfiable => 13,
        }
    }
}
