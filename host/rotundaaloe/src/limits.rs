//! The guard's limits, each as the most that there can be. The C header has the
//! same names with `ROTUNDAALOE_` before them.

/// Users in a state's life.
pub const MOST_USERS: usize = 32;
/// Live threads at a time.
pub const MOST_THREADS: usize = 64;
/// Segments in a state's life.
pub const MOST_SEGMENTS: usize = 64;
/// Defined keys in a state's life.
pub const MOST_KEYS: usize = 1_024;
/// Keys in a segment's list, its own S key included.
pub const MOST_LISTED: usize = 8;
/// Products of a formula, and of all standing locks of a segment together.
pub const MOST_PRODUCTS: usize = 8;
/// Literals of a product.
pub const MOST_LITERALS: usize = 6;
/// Open calls of a thread.
pub const MOST_OPEN_CALLS: usize = 16;
/// Thread numbers in a state's life, and as many lock numbers.
pub const MOST_NUMBERS: usize = 65_536;
/// Bytes of a formula text.
pub const MOST_TEXT: usize = 96;
/// Brackets within each other in a formula text.
pub const MOST_DEPTH: usize = 8;
/// Bytes of a journal.
pub const JOURNAL_BYTES: usize = 65_535;
/// Bytes of a journal before its first record, so of one without records.
pub const JOURNAL_HEAD: usize = 7;
