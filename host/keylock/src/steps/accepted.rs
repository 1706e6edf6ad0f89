//! What an accepted call means for those after it, in a sentence or two.

use super::judgement::{Judgement, PAST, PRESENT};
use super::product::wanted;
use super::state::{Loss, State, key};
use crate::words;
use rotundaaloe::formula::{self, Key};
use rotundaaloe::{Call, Defined, Lock, Operations, Record, Segment, Thread, User};

/// So many threads are named whose open calls lose a key; more are counted.
const MOST_NAMED: usize = 4;

/// Asked before the call is taken in, when the name of what it makes is known.
pub fn reason(
    state: &State,
    record: &Record,
    answer: u16,
    judgement: Option<&Judgement>,
) -> String {
    let Some(call) = Call::of(record) else {
        return String::new();
    };
    match call {
        Call::NewUser => {
            let user = state.said(User(answer));
            format!("Every thread of {user} holds U{answer}.")
        }
        Call::StartThread { user } => {
            format!("It holds {user}, its user's key, and R{answer}, its own, until it ends.")
        }
        Call::EndThread { thread } => ended(state, thread),
        Call::NewSegment { kind: 1, .. } => {
            "Without a lock nobody may read or write it.".to_string()
        }
        Call::NewSegment { .. } => {
            format!("A call of it hands over S{answer}. Without a lock nobody may call it.")
        }
        Call::NewKey { thread } => {
            let maker = state.editor(thread).map(|user| state.said(user));
            let maker = maker.unwrap_or_default();
            format!("Only {maker} can give D{answer}, and only to segments of his own.")
        }
        Call::GiveKey { segment, key, .. } => given(state, segment, key),
        Call::TakeKey { segment, key, .. } => taken(state, segment, key, &state.losses(record)),
        Call::AddLock {
            operations, text, ..
        } => locked(state, operations, text),
        Call::DropLock { lock, .. } => dropped(state, lock),
        Call::ReturnCall { thread } => returned(state, thread),
        Call::CallSegment { .. } | Call::Access { .. } => judgement.map_or(String::new(), granted),
    }
}

fn ended(state: &State, thread: Thread) -> String {
    match state.open_calls(thread).len() {
        0 => "It holds no key any more.",
        1 => "Its open call is closed, and it holds no key any more.",
        _ => "Its open calls are closed, and it holds no key any more.",
    }
    .to_string()
}

fn given(state: &State, segment: Segment, key: Defined) -> String {
    if state.is_sheet(segment) {
        return uncalled(key);
    }
    let but = match state.was_taken_from_calls(segment, Key::Defined(key)) {
        true => ", not even those that it was taken from",
        false => "",
    };
    let segment = state.said(segment);
    format!("New calls of {segment} hand over {key}. Open ones don't get it{but}.")
}

fn uncalled(key: Defined) -> String {
    format!("A sheet isn't called, so nobody gets {key} from it.")
}

fn taken(state: &State, segment: Segment, key: Defined, losses: &[Loss]) -> String {
    if state.is_sheet(segment) {
        return uncalled(key);
    }
    let lost = match losses.is_empty() {
        true => String::new(),
        false => format!(" It is withdrawn from {}.", losing(state, losses)),
    };
    let segment = state.said(segment);
    format!("New calls of {segment} don't hand over {key}.{lost}")
}

/// `an open call of thread 0 and 2 open calls of thread 1`
fn losing(state: &State, losses: &[Loss]) -> String {
    let calls = |count: usize| match count {
        1 => "an open call".to_string(),
        _ => format!("{count} open calls"),
    };
    let threads = losses.chunk_by(|loss, next| loss.thread == next.thread);
    let threads = threads.map(|lost| {
        let thread = state.said(lost[0].thread);
        format!("{} of {thread}", calls(lost.len()))
    });
    let threads: Vec<String> = threads.collect();
    match threads.len() {
        ..=MOST_NAMED => words::listed(&threads, "and"),
        count => format!("{} of {count} threads", calls(losses.len())),
    }
}

fn dropped(state: &State, lock: Lock) -> String {
    match state.standing(lock).is_some_and(|lock| lock.denies()) {
        true => "It keeps nobody out any more, threads in mid-run included.",
        false => "It opens for nobody any more, threads in mid-run included.",
    }
    .to_string()
}

fn locked(state: &State, operations: Operations, text: &[u8]) -> String {
    let products = formula::compile(text, state.issued()).unwrap_or_default();
    let wanted = products
        .iter()
        .map(|product| wanted(product, PRESENT.holds, PRESENT.lacks));
    let wanted: Vec<String> = wanted.collect();
    let verb = match operations.0 & 8 {
        8 => "It denies",
        _ => "It grants",
    };
    let operations = words::operations(operations.0 & 7);
    format!(
        "{verb} {operations} to a thread that {}.",
        wanted.join(", or ")
    )
}

/// Which keys go back with the newest open call, and which are still held.
fn returned(state: &State, thread: Thread) -> String {
    let Some((left, open)) = state.open_calls(thread).split_last() else {
        return String::new();
    };
    let (still, gone): (Vec<_>, Vec<_>) = left
        .list
        .iter()
        .partition(|key| open.iter().any(|call| call.list.contains(key)));
    let gives_back = match gone.is_empty() {
        true => None,
        false => Some(format!("It gives back {}.", listed(&gone))),
    };
    let one_has_all = open
        .iter()
        .any(|call| still.iter().all(|key| call.list.contains(key)));
    let shown = listed(&still);
    let stays = match (still.len(), one_has_all) {
        (0, _) => None,
        (1, _) => Some(format!(
            "{shown} stays held: another open call of this thread handed it over too."
        )),
        (_, true) => Some(format!(
            "{shown} stay held: another open call of this thread handed them over too."
        )),
        (_, false) => Some(format!(
            "{shown} stay held: other open calls of this thread handed them over too."
        )),
    };
    let sentences: Vec<String> = gives_back.into_iter().chain(stays).collect();
    sentences.join(" ")
}

fn listed(keys: &[&reference::Key]) -> String {
    let keys = keys.iter().map(|listed| key(**listed).to_string());
    words::listed(&keys.collect::<Vec<_>>(), "and")
}

fn granted(judgement: &Judgement) -> String {
    // A call hands over keys, so what it was tried with is past.
    let verbs = match judgement.operation {
        1 => PAST,
        _ => PRESENT,
    };
    judgement.opening(&verbs) + &judgement.withdrawn()
}
