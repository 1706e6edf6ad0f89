//! The key search as the history tells it, from the oldest open call to the
//! newest: a call that hands the key over is at place 0, and each newer one that
//! doesn't moves it one place on.

use super::{History, Thread};
use crate::Key;

impl History {
    /// The place, 0 for the newest, of the newest open call that hands the key
    /// over, or none if no open call does. `None` where the thread isn't live.
    pub fn find_key(&self, thread: u16, key: Key) -> Option<Option<usize>> {
        self.thread(thread).map(|thread| thread.place_of(key))
    }
}

impl Thread {
    fn place_of(&self, key: Key) -> Option<usize> {
        let mut place = None;
        for call in &self.open_calls {
            place = match call.list.contains(&key) {
                true => Some(0),
                false => place.map(|place| place + 1),
            };
        }
        place
    }
}
