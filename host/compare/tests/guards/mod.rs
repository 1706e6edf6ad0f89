//! What the comparison of the two guards is made of.

mod filling;
mod frames;
mod garbage;
pub mod pair;
pub mod tally;

use reference::operations::{READ, WRITE};

/// What an access can be.
pub const ACCESSES: [u16; 2] = [READ, WRITE];
