//! Random calls, in lists and in journals.

use reference::journal::Record as Call;
use rotundaaloe::{Guard, Journal, Record};
use testing::calls::{Caller, World};
use testing::random::Random;

/// A journal of random calls. Each is answered by a guard before the next one is
/// drawn: `None` is a refusal.
pub fn random_journal(
    random: &mut Random,
    world: &World,
    mut answered: impl FnMut(&Call) -> Option<u16>,
) -> Journal {
    let mut journal = Journal::new();
    let mut caller = Caller::new(random, world);
    for _ in 0..caller.length() {
        let call = caller.next_call();
        // Calls without a shape stand in no journal, and a full one takes no more.
        if journal.append(borrowed(&call)).is_err() {
            continue;
        }
        if let Some(answer) = answered(&call) {
            caller.learn(&call, answer);
        }
    }
    journal
}

/// A list of random calls, with some that stand in no journal.
pub fn random_list(random: &mut Random, world: &World) -> Vec<Call> {
    let mut guard = Guard::new();
    let mut caller = Caller::new(random, world);
    let mut calls = Vec::new();
    for _ in 0..caller.length() {
        let call = caller.next_call();
        if let Ok(answer) = guard.call(borrowed(&call)) {
            caller.learn(&call, answer);
        }
        calls.push(call);
    }
    calls
}

pub fn borrowed(call: &Call) -> Record<'_> {
    Record {
        letter: call.letter,
        a: call.a,
        b: call.b,
        c: call.c,
        text: &call.text,
    }
}
