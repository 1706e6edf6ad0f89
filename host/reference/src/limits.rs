//! Document 01's limits, each once.

/// The most users.
pub const MAX_USERS: usize = 32;
/// The most live threads at a time.
pub const MAX_LIVE_THREADS: usize = 64;
/// The most segments.
pub const MAX_SEGMENTS: usize = 64;
/// The most defined keys.
pub const MAX_DEFINED_KEYS: usize = 1_024;
/// The most keys in a segment's list, its own included.
pub const MAX_LIST_KEYS: usize = 8;
/// The most products in all standing locks of a segment.
pub const MAX_SEGMENT_PRODUCTS: usize = 8;
/// The most frames (open calls) of a thread.
pub const MAX_FRAMES: usize = 16;
/// The thread numbers that are ever handed out.
pub const THREAD_NUMBERS: u32 = 65_536;
/// The lock numbers that are ever handed out.
pub const LOCK_NUMBERS: u32 = 65_536;

/// The most bytes of a formula text.
pub const MAX_TEXT_BYTES: usize = 96;
/// The most brackets that may be open at one place of a text.
pub const MAX_DEPTH: usize = 8;
/// The most products of a node.
pub const MAX_PRODUCTS: usize = 8;
/// The most literals of a product.
pub const MAX_LITERALS: usize = 6;

/// The most bytes of a journal.
pub const MAX_JOURNAL_BYTES: usize = 65_535;
