//! A segment's lock list, as the guard shows it to the owner and to anyone else.

use rotundaaloe::refusal;
use rotundaaloe::{Guard, LockRow, Segment, User};

/// A segment's lock list after a call.
#[derive(Clone, Debug)]
pub struct Lists {
    /// What the owner sees: a row for each product, with its keys.
    pub owners: Vec<LockRow>,
    /// What a colleague sees, or would see: a row for each lock, without keys.
    pub colleagues: Vec<LockRow>,
}

/// Of a segment that is handed out.
pub fn of(guard: &Guard, owner: User, segment: Segment) -> Lists {
    let owners = guard.locks(owner, segment);
    Lists {
        owners: owners.expect(HANDED_OUT),
        colleagues: colleagues(guard, owner, segment),
    }
}

const HANDED_OUT: &str = "user and segment are handed out";

/// Where the owner is the only user, a colleague is made in a copy.
fn colleagues(guard: &Guard, owner: User, segment: Segment) -> Vec<LockRow> {
    let colleague = if owner == User(0) { User(1) } else { User(0) };
    let mut rows = guard.locks(colleague, segment);
    if rows == Err(refusal::Locks::UnknownUser) {
        let mut guard = guard.clone();
        let colleague = guard.new_user().expect("room for a second user");
        rows = guard.locks(colleague, segment);
    }
    rows.expect(HANDED_OUT)
}
