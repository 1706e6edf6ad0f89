//! Calls and answers in words.

use crate::edits;
use crate::names::{Names, Thing};
use rotundaaloe::{Call, Defined, Record, Refusal, Segment, Thread, User};

/// What a call asks for: `thread 0 writes segment 2`.
pub fn call(record: &Record) -> String {
    call_by_name(record, &Names::default(), |_| None)
}

/// The same by the names that are known: `thread 0 writes the totals sheet
/// (segment 2)`. In an edit a thread's user, who edits, is said too, where he is
/// known: `thread 0, for user 0, makes a sheet`.
pub fn call_by_name(
    record: &Record,
    names: &Names,
    user_of: impl Fn(Thread) -> Option<User>,
) -> String {
    let Some(call) = Call::of(record) else {
        return "no call has this shape".to_string();
    };
    let deed = deed(call, names);
    let Some(actor) = actor(call) else {
        return deed;
    };
    let editor = edits::thread(call).and_then(user_of);
    let editor = editor.map(|user| format!(", for {},", names.said(user)));
    format!("{}{} {deed}", names.said(actor), editor.unwrap_or_default())
}

/// Who calls, if the call says it.
fn actor(call: Call) -> Option<Thing> {
    match call {
        Call::NewUser => None,
        Call::StartThread { user } => Some(user.into()),
        Call::EndThread { thread }
        | Call::NewSegment { thread, .. }
        | Call::NewKey { thread }
        | Call::GiveKey { thread, .. }
        | Call::TakeKey { thread, .. }
        | Call::AddLock { thread, .. }
        | Call::DropLock { thread, .. }
        | Call::CallSegment { thread, .. }
        | Call::ReturnCall { thread }
        | Call::Access { thread, .. } => Some(thread.into()),
    }
}

fn deed(call: Call, names: &Names) -> String {
    match call {
        Call::NewUser => "a new user".to_string(),
        Call::StartThread { .. } => "starts a thread".to_string(),
        Call::EndThread { .. } => "ends".to_string(),
        Call::NewSegment { kind: 0, .. } => "makes a code segment".to_string(),
        Call::NewSegment { kind: 1, .. } => "makes a sheet".to_string(),
        Call::NewSegment { kind, .. } => format!("makes a segment of kind {kind}"),
        Call::NewKey { .. } => "makes a key".to_string(),
        Call::GiveKey { segment, key, .. } => {
            format!("gives {} to {}", names.said(key), names.said(segment))
        }
        Call::TakeKey { segment, key, .. } => {
            format!("takes {} from {}", names.said(key), names.said(segment))
        }
        Call::AddLock {
            segment,
            operations: set,
            ..
        } => {
            format!("locks {}: {}", names.said(segment), operations(set.0))
        }
        Call::DropLock { lock, .. } => format!("drops {lock}"),
        Call::CallSegment { segment, .. } => format!("calls {}", names.said(segment)),
        Call::ReturnCall { .. } => "returns".to_string(),
        Call::Access {
            segment, operation, ..
        } => {
            format!("{} {}", access(operation), names.said(segment))
        }
    }
}

fn access(operation: u16) -> String {
    match operation {
        2 => "reads".to_string(),
        4 => "writes".to_string(),
        operation => format!("does operation {operation} on"),
    }
}

/// A lock's operations: `read and write`, `execute denied`.
pub fn operations(set: u16) -> String {
    let names: Vec<&str> = [(1, "execute"), (2, "read"), (4, "write")]
        .into_iter()
        .filter(|(operation, _)| set & operation != 0)
        .map(|(_, name)| name)
        .collect();
    if names.is_empty() || set > 15 {
        return format!("operations {set}");
    }
    let denied = if set & 8 == 8 { " denied" } else { "" };
    names.join(" and ") + denied
}

/// What a lock does where it opens.
pub fn verb(denies: bool) -> &'static str {
    if denies { "denies" } else { "grants" }
}

/// What an answer says: `granted by lock 2`, `refused: no way in (15)`. The
/// names are those after the call.
pub fn answer(record: &Record, answer: Result<u16, Refusal>, names: &Names) -> String {
    let number = match answer {
        Ok(number) => number,
        Err(refusal) => return format!("refused: {refusal}"),
    };
    let counted = |one: &str, more: &str| match number {
        1 => format!("1 {one}"),
        _ => format!("{number} {more}"),
    };
    let Some(call) = Call::of(record) else {
        return number.to_string();
    };
    match call {
        Call::NewUser => names.said(User(number)),
        Call::StartThread { .. } => names.said(Thread(number)),
        Call::EndThread { .. } => counted("open call closed", "open calls closed"),
        Call::NewSegment { .. } => names.said(Segment(number)),
        Call::NewKey { .. } => names.said(Defined(number)),
        Call::GiveKey { .. } | Call::TakeKey { .. } => {
            counted("key in the list now", "keys in the list now")
        }
        Call::AddLock { .. } => format!("lock {number}"),
        Call::DropLock { .. } => counted("product removed", "products removed"),
        Call::ReturnCall { .. } => format!("left {}", names.said(Segment(number))),
        Call::CallSegment { .. } | Call::Access { .. } => format!("granted by lock {number}"),
    }
}

/// Some words with a joint before the last: `S0, S1 and D0`.
pub fn listed(words: &[String], joint: &str) -> String {
    match words {
        [] => String::new(),
        [word] => word.clone(),
        [first @ .., last] => format!("{} {joint} {last}", first.join(", ")),
    }
}

/// The words as a sentence begins: with a capital letter.
pub fn capital(words: &str) -> String {
    let mut letters = words.chars();
    let first = letters.next().map(|first| first.to_ascii_uppercase());
    first.into_iter().chain(letters).collect()
}
