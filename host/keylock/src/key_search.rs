//! A key search as `keylock key` prints it.

use crate::answer::Answer;
use rotundaaloe::formula::Key;
use rotundaaloe::{Guard, Refusal, Thread};

/// The guard's answer: `ok N` with the place of the newest open call that hands
/// the key over, `none`, or `no N M`.
pub fn shown(guard: &Guard, thread: Thread, key: Key) -> String {
    let answer = match guard.find_key(thread, key) {
        Ok(None) => return "none\n".to_string(),
        Ok(Some(place)) => Ok(place as u16),
        Err(refusal) => Err(Refusal::from(refusal)),
    };
    format!("{}\n", Answer::from(answer))
}
