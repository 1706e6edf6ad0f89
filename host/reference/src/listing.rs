//! The lock list (document 02, P1): what a row shows of a segment's locks. A
//! listing fills rows that whoever asks for it lends, and asks nothing of what
//! was in them.

use crate::formula::Literal;

/// A product of a lock, for the segment's owner, or a whole lock, for anyone
/// else.
#[derive(Clone, Debug, Default, PartialEq, Eq)]
pub struct Row {
    /// The lock's number.
    pub lock: u16,
    /// A sum of 1 execute, 2 read and 4 write, without the 8 of a deny lock.
    pub operations: u16,
    pub denies: bool,
    /// The product's, in its order. Every product has one or more, so blank ones
    /// are none.
    pub literals: Vec<Literal>,
}
