//! The key search (document 02, P3): which open call of a thread hands a key
//! over, the newest of several.

use crate::formula::Key;
use crate::guard::{Guard, answered};
use crate::numbers::Thread;
use crate::raw;
use crate::refusal;

/// The answer where no open call does. No thread has so many.
const NO_PLACE: u16 = u16::MAX;

impl Guard {
    /// The place of the thread's newest open call that hands the key over, among
    /// all of its open calls and from 0 for the newest, as they stand in
    /// [`frames`](crate::view::Thread::frames). None where no open call does. The
    /// thread's U and R keys are held, and handed over by none.
    ///
    /// ```
    /// use rotundaaloe::formula::Key;
    /// # use rotundaaloe::{Guard, Kind, Operations, Refusal};
    /// # fn main() -> Result<(), Refusal> {
    /// # let mut guard = Guard::new();
    /// # let user = guard.new_user()?;
    /// # let thread = guard.start_thread(user)?;
    /// # let loader = guard.new_segment(thread, Kind::Code)?;
    /// # let recalculation = guard.new_segment(thread, Kind::Code)?;
    /// # guard.add_lock(thread, loader, Operations::EXECUTE, "U0")?;
    /// # guard.add_lock(thread, recalculation, Operations::EXECUTE, "U0")?;
    /// guard.call_segment(thread, loader)?;
    /// guard.call_segment(thread, recalculation)?;
    /// let place = |key| guard.find_key(thread, key);
    /// assert_eq!(place(Key::Segment(recalculation))?, Some(0));
    /// assert_eq!(place(Key::Segment(loader))?, Some(1));
    /// assert_eq!(place(Key::User(user))?, None);
    /// # Ok(())
    /// # }
    /// ```
    pub fn find_key(&self, thread: Thread, key: Key) -> Result<Option<usize>, refusal::FindKey> {
        let answer = answered(raw::find_key(self.cells(), thread.0, key.code()));
        let place = answer.map_err(refusal::FindKey::of)?;
        Ok((place != NO_PLACE).then_some(usize::from(place)))
    }
}
