//! Edits: the calls N, K, G, T, L and D, which a thread makes for its user. Until
//! version 2 of the journal they named a user.

use crate::answer::Answer;
use crate::text::Text;
use rotundaaloe::{Call, Letter, Refusal, Thread};

/// The thread that an edit names. None of another call.
pub fn thread(call: Call) -> Option<Thread> {
    match call {
        Call::NewSegment { thread, .. }
        | Call::NewKey { thread }
        | Call::GiveKey { thread, .. }
        | Call::TakeKey { thread, .. }
        | Call::AddLock { thread, .. }
        | Call::DropLock { thread, .. } => Some(thread),
        Call::NewUser | Call::StartThread { .. } | Call::EndThread { .. } => None,
        Call::CallSegment { .. } | Call::ReturnCall { .. } | Call::Access { .. } => None,
    }
}

/// A text has no version, but one of version 1 shows itself: its first edit whose
/// thread no S above can have started, where the line doesn't expect that
/// refusal. The line's number, and a note on it.
pub fn note(text: &Text) -> Option<(usize, String)> {
    let no_thread = Answer::from(Err(Refusal::NoThread));
    let mut starts = 0;
    for (line, record) in text.calls() {
        let call = Call::of(&record)?;
        if call.letter() == Letter::StartThread {
            starts += 1;
        }
        if let Some(Thread(number)) = thread(call)
            && usize::from(number) >= starts
            && line.expected != Some(no_thread)
        {
            return Some((line.number, unstarted(call.letter(), number, starts)));
        }
    }
    None
}

fn unstarted(letter: Letter, thread: u16, starts: usize) -> String {
    let above = match starts {
        0 => "no S stands above it".to_string(),
        1 => "only 1 S stands above it".to_string(),
        _ => format!("only {starts} S stand above it"),
    };
    format!(
        "{} names thread {thread}, and {above}. Since version 2 the edits N, K, G, T, L and D \
         name a thread, not a user: start one with S first",
        letter.char()
    )
}
