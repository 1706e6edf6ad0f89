//! The operations' numbers. A lock's are a sum of them.

pub const EXECUTE: u16 = 1;
pub const READ: u16 = 2;
pub const WRITE: u16 = 4;
/// Stands among a lock's operations where it is a deny lock.
pub const DENY: u16 = 8;
