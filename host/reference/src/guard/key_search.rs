//! The key search (document 02, P3) as the guard answers it. It changes nothing
//! in the state.

use super::{Frame, Guard, Refusal};
use crate::{Key, Kind};

impl Guard {
    /// The place, 0 for the newest, of the thread's newest open call that hands
    /// the key over. All open calls count. `None` where none does, also for a key
    /// that was never handed out.
    pub fn find_key(&self, thread: u16, key: Key) -> Result<Option<usize>, Refusal> {
        let frames = &self.thread(thread)?.frames;
        Ok(frames.iter().rev().position(|frame| frame.hands_over(key)))
    }
}

impl Frame {
    /// A user's key and a thread's are held, but no list has them.
    fn hands_over(&self, key: Key) -> bool {
        match key.kind {
            Kind::User | Kind::Thread => false,
            Kind::Segment => self.segment == key.number,
            Kind::Defined => self.defined.contains(&key.number),
        }
    }
}
