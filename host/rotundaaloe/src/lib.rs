//! The proved guard for a host in Rust.
//!
//! A [`Guard`] owns the protection state, so no array can have the wrong length
//! and nobody else can write to it during a call. Numbers have a type for each
//! kind, and each call has an enum of the refusals that it can give
//! ([`refusal`]). [`Journal`]s are the files that an office replays, and a
//! [`Recorder`] is a guard that keeps one. A guard's state is saved to a file and
//! loaded again ([`state`]), and [`view`] tells what stands in it;
//! [`Guard::locks`] tells a user no more of a segment's locks than is theirs to
//! see, and [`Guard::find_key`] which open call hands a key over. [`formula`] shows
//! what a lock's text compiles to; [`limits`] are the numbers that a host can run
//! into. [`raw`] has the proved functions as they are.
//!
//! ```
//! use rotundaaloe::{Access, Guard, Kind, Operations, refusal};
//!
//! # fn main() -> Result<(), rotundaaloe::Refusal> {
//! let mut guard = Guard::new();
//! let owner = guard.new_user()?;
//! let thread = guard.start_thread(owner)?;
//! let loader = guard.new_segment(thread, Kind::Code)?;
//! let totals = guard.new_segment(thread, Kind::Sheet)?;
//! guard.add_lock(thread, loader, Operations::EXECUTE, "U0")?;
//! let lock = guard.add_lock(thread, totals, Operations::WRITE, "S0")?;
//!
//! let refused = guard.access(thread, totals, Access::Write);
//! assert_eq!(refused, Err(refusal::Access::NotGranted));
//! guard.call_segment(thread, loader)?;
//! assert_eq!(guard.access(thread, totals, Access::Write), Ok(lock));
//! # Ok(())
//! # }
//! ```
//!
//! A user can't be passed for a thread:
//!
//! ```compile_fail
//! # use rotundaaloe::{Guard, Refusal};
//! # fn main() -> Result<(), Refusal> {
//! let mut guard = Guard::new();
//! let user = guard.new_user()?;
//! guard.new_key(user)?;
//! # Ok(())
//! # }
//! ```

pub mod call;
pub mod formula;
mod guard;
pub mod journal;
mod key_search;
pub mod limits;
mod locks;
mod numbers;
pub mod raw;
pub mod recorder;
pub mod refusal;
mod scope;
pub mod state;
pub mod view;

pub use call::{Call, Field, Letter};
pub use guard::{Guard, Left};
pub use journal::{Journal, Record};
pub use locks::LockRow;
pub use numbers::{Access, Defined, Kind, Lock, Operations, Segment, Thread, User};
pub use recorder::Recorder;
pub use refusal::Refusal;

/// The version of this library, and of the proved functions that it is linked
/// with: [`raw::version`] has it as a number.
pub const VERSION: &str = env!("CARGO_PKG_VERSION");

/// The programs of the page for hosts are tried too.
#[cfg(doctest)]
#[doc = include_str!("../../../docs/HOST.md")]
mod page_for_hosts {}
