//! An open call as the history tells it (document 02, P5): it hands over its list
//! less what was taken since. Neither is ever struck while the call is open.

use crate::Key;
use std::collections::BTreeSet;

/// An open call.
pub struct OpenCall {
    pub segment: u16,
    /// The segment's list when the call was made.
    pub found: Vec<Key>,
    /// What was taken from the segment's list since, also what came into it after
    /// the call was made. Giving a key again takes nothing back.
    pub taken: BTreeSet<Key>,
    /// What it hands over now: what it found, in that order, less what was taken.
    pub list: Vec<Key>,
}

impl OpenCall {
    /// A call that is made when the segment has this list.
    pub(super) fn new(segment: u16, found: &[Key]) -> OpenCall {
        OpenCall {
            segment,
            found: found.to_vec(),
            taken: BTreeSet::new(),
            list: found.to_vec(),
        }
    }

    /// Writes down that a key was taken from the segment's list.
    pub(super) fn note_taken(&mut self, key: Key) {
        self.taken.insert(key);
        let left = self.found.iter().filter(|key| !self.taken.contains(key));
        self.list = left.copied().collect();
    }
}
