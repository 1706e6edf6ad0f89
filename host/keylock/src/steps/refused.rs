//! Why a call is refused, in a sentence or two about what stands.

use super::judgement::{Judgement, PRESENT};
use super::shown_keys;
use super::state::State;
use crate::edits;
use crate::figures::grouped;
use crate::names::Thing;
use crate::words::{self, capital};
use crate::{shown, spelling};
use rotundaaloe::{Call, Defined, Field, Operations, Record, Refusal, Segment, Thread, User};
use rotundaaloe::{formula, limits};

/// Asked before the call is taken in.
pub fn reason(
    state: &State,
    record: &Record,
    refusal: Refusal,
    judgement: Option<&Judgement>,
) -> String {
    let Some(call) = Call::of(record) else {
        return NO_SHAPE.to_string();
    };
    let issued = state.issued();
    let named = |field: Field| named(record, call, field);
    match refusal {
        Refusal::UnknownUser => none(User(named(Field::User)), issued.users, "user"),
        Refusal::NoThread => no_thread(state, call, Thread(named(Field::Thread))),
        Refusal::NoSegment => none(Segment(named(Field::Segment)), issued.segments, "segment"),
        Refusal::NoKey => none(Defined(named(Field::Key)), issued.defined, "key"),
        Refusal::NoLock => no_lock(state, named(Field::Lock)),
        Refusal::NotOwner => not_owner(state, call),
        Refusal::Unfit => unfit(state, call),
        Refusal::AlreadyPresent | Refusal::NotPresent => present(state, call),
        Refusal::Full => full(state, call),
        Refusal::Malformed => malformed(state, record.text),
        Refusal::TooWide => too_wide(),
        Refusal::Unsatisfiable => {
            "No key set opens it: every product has a key both plain and barred.".into()
        }
        Refusal::Denied(_) => judgement.map_or(String::new(), denied),
        Refusal::NotGranted => judgement.map_or(String::new(), not_granted),
        Refusal::NotJournal | Refusal::OtherVersion | Refusal::Corrupt => NO_SHAPE.to_string(),
        // No call lends rows: only a lock list is refused so.
        Refusal::TooFewRows => String::new(),
    }
}

const NO_SHAPE: &str = "No call has this shape: an unknown letter, a field that should be 0, \
                        or a text where none belongs.";

/// A field of a call.
fn named(record: &Record, call: Call, wanted: Field) -> u16 {
    let fields = call.letter().fields().iter();
    let mut values = fields.zip([record.a, record.b, record.c]);
    let value = values.find(|(field, _)| **field == wanted);
    value.map_or(0, |(_, value)| value)
}

fn none(thing: impl Into<Thing>, made: u32, noun: &str) -> String {
    format!("There is no {}: {}.", thing.into(), so_far(made, noun))
}

fn no_thread(state: &State, call: Call, thread: Thread) -> String {
    let said = capital(&state.said(thread));
    let lack = match u32::from(thread.0) < state.issued().threads {
        true => "has ended",
        false => "was never started",
    };
    let needed = match edits::thread(call) {
        Some(_) => " Only a live thread edits, for its user.",
        None => "",
    };
    format!("{said} {lack}.{needed}")
}

fn no_lock(state: &State, lock: u16) -> String {
    match u32::from(lock) < state.kept.locks_made() {
        true => format!("Lock {lock} was dropped."),
        false => format!("Lock {lock} was never made."),
    }
}

fn so_far(count: u32, thing: &str) -> String {
    match count {
        0 => format!("no {thing} was made so far"),
        1 => format!("1 {thing} was made so far"),
        _ => format!("{count} {thing}s were made so far"),
    }
}

/// Refusal 6. In a G the key's maker counts too.
fn not_owner(state: &State, call: Call) -> String {
    let Some(thread) = edits::thread(call) else {
        return String::new();
    };
    let user = state.editor(thread);
    let said = |user: Option<User>| user.map_or(String::new(), |user| state.said(user));
    let editor = format!("{} edits for {}", state.said(thread), said(user));
    match call {
        Call::GiveKey { segment, key, .. } if state.owner(segment) == user => {
            let (maker, key) = (said(state.kept.maker(key)), capital(&state.said(key)));
            format!("{key} was made by {maker}, and {editor}. Only its maker gives a key.")
        }
        Call::GiveKey { segment, .. }
        | Call::TakeKey { segment, .. }
        | Call::AddLock { segment, .. } => {
            let (owner, segment) = (said(state.owner(segment)), capital(&state.said(segment)));
            format!("{segment} belongs to {owner}, and {editor}.")
        }
        Call::DropLock { lock, .. } => {
            let segment = state.standing(lock).map(|lock| Segment(lock.segment));
            let owner = said(segment.and_then(|segment| state.owner(segment)));
            let segment = segment.map_or(String::new(), |segment| state.said(segment));
            format!(
                "Lock {} is on {segment}, which belongs to {owner}, and {editor}.",
                lock.0
            )
        }
        Call::NewUser | Call::NewSegment { .. } | Call::NewKey { .. } => String::new(),
        Call::StartThread { .. } | Call::EndThread { .. } | Call::ReturnCall { .. } => {
            String::new()
        }
        Call::CallSegment { .. } | Call::Access { .. } => String::new(),
    }
}

/// Refusal 7.
fn unfit(state: &State, call: Call) -> String {
    let said = |segment: Segment| capital(&state.said(segment));
    match call {
        Call::NewSegment { .. } => "A segment is code (0) or a sheet (1).".to_string(),
        Call::AddLock {
            segment,
            operations,
            ..
        } => unfit_lock(state, segment, operations),
        Call::CallSegment { segment, .. } => {
            let segment = said(segment);
            format!("{segment} is a sheet: it is read or written, and not called.")
        }
        Call::Access {
            segment,
            operation: 2 | 4,
            ..
        } => {
            let segment = said(segment);
            format!("{segment} is code: it is called, and not read or written.")
        }
        Call::Access { .. } => "An access is a read (2) or a write (4).".to_string(),
        Call::NewUser | Call::NewKey { .. } | Call::DropLock { .. } => String::new(),
        Call::StartThread { .. } | Call::EndThread { .. } | Call::ReturnCall { .. } => {
            String::new()
        }
        Call::GiveKey { .. } | Call::TakeKey { .. } => String::new(),
    }
}

fn unfit_lock(state: &State, segment: Segment, operations: Operations) -> String {
    if operations.0 & 7 == 0 || operations.0 > 15 {
        return "A lock has some of execute (1), read (2) and write (4), and maybe deny (8)."
            .to_string();
    }
    let said = capital(&state.said(segment));
    match state.is_sheet(segment) {
        true => format!("{said} is a sheet, which takes read and write only."),
        false => format!("{said} is code, which takes execute only."),
    }
}

/// Refusals 8 and 9: a key that is in the list, or isn't; no open call.
fn present(state: &State, call: Call) -> String {
    let list = |segment: Segment| shown_keys(&state.list(segment));
    match call {
        Call::GiveKey { segment, key, .. } => {
            let (segment, list) = (state.said(segment), list(segment));
            format!("{key} is in the list of {segment} already: {list}.")
        }
        Call::TakeKey { segment, key, .. } => {
            let (segment, list) = (state.said(segment), list(segment));
            format!("{key} isn't in the list of {segment}: {list}.")
        }
        Call::ReturnCall { thread } => {
            let thread = capital(&state.said(thread));
            format!("{thread} has no open call to return from.")
        }
        Call::NewUser | Call::NewSegment { .. } | Call::NewKey { .. } => String::new(),
        Call::StartThread { .. } | Call::EndThread { .. } => String::new(),
        Call::AddLock { .. } | Call::DropLock { .. } => String::new(),
        Call::CallSegment { .. } | Call::Access { .. } => String::new(),
    }
}

/// Refusal 10.
fn full(state: &State, call: Call) -> String {
    let most = |count: usize, what: &str| {
        let count = grouped(count);
        format!("There are {count} {what}, and no more fit.")
    };
    match call {
        Call::NewUser => most(limits::MOST_USERS, "users"),
        Call::NewSegment { .. } => most(limits::MOST_SEGMENTS, "segments"),
        Call::NewKey { .. } => most(limits::MOST_KEYS, "keys"),
        Call::StartThread { .. } => match state.history.live_threads().count() {
            limits::MOST_THREADS.. => most(limits::MOST_THREADS, "live threads"),
            _ => all_handed_out("thread"),
        },
        Call::GiveKey { segment, .. } => {
            let (segment, list) = (state.said(segment), shown_keys(&state.list(segment)));
            let most = limits::MOST_LISTED;
            format!("The list of {segment} has {most} keys, and no more fit: {list}.")
        }
        Call::AddLock { segment, text, .. } => no_room_for_lock(state, segment, text),
        Call::CallSegment { thread, .. } => {
            let (thread, most) = (state.said(thread), limits::MOST_OPEN_CALLS);
            format!("A lock opens, but {thread} has {most} open calls, and no more fit.")
        }
        Call::EndThread { .. } | Call::ReturnCall { .. } | Call::Access { .. } => String::new(),
        Call::TakeKey { .. } | Call::DropLock { .. } => String::new(),
    }
}

fn all_handed_out(thing: &str) -> String {
    let all = grouped(limits::MOST_NUMBERS);
    format!("All {all} {thing} numbers were handed out.")
}

fn no_room_for_lock(state: &State, segment: Segment, text: &[u8]) -> String {
    if state.kept.locks_made() as usize >= limits::MOST_NUMBERS {
        return all_handed_out("lock");
    }
    let new = formula::compile(text, state.issued()).map_or(0, |products| products.len());
    let locks = super::view::locks(state, segment, 7);
    let standing: usize = locks.iter().map(|lock| lock.products.len()).sum();
    let (segment, most) = (state.said(segment), limits::MOST_PRODUCTS);
    format!(
        "The locks of {segment} have {standing} products and this one {new}: \
         over {most} don't fit."
    )
}

fn too_wide() -> String {
    let (products, keys) = (limits::MOST_PRODUCTS, limits::MOST_LITERALS);
    format!(
        "Some part of the formula needs more than {products} products, \
         or more than {keys} keys in one."
    )
}

fn malformed(state: &State, text: &[u8]) -> String {
    if text.is_empty() {
        return "There is no text.".to_string();
    }
    if text.len() > limits::MOST_TEXT {
        return format!("The text has more than {} bytes.", limits::MOST_TEXT);
    }
    if let Some((place, wrong)) = spelling::fault(text) {
        let place = match text.get(place) {
            Some(byte) => format!(
                "At '{}', byte {} of the text",
                shown::bytes(&[*byte]),
                place + 1
            ),
            None => "At the end of the text".to_string(),
        };
        return format!("{place}: {wrong}.");
    }
    match first_unknown(text, state.issued()) {
        Some(key) => format!("The key {key} isn't handed out yet."),
        None => "The text isn't a formula.".to_string(),
    }
}

/// The first key in a well spelt text that isn't handed out.
fn first_unknown(text: &[u8], issued: formula::Issued) -> Option<String> {
    let text = str::from_utf8(text).ok()?;
    let mut keys = text.split(|next: char| !next.is_ascii_alphanumeric());
    let unknown = keys.find(|key| {
        let count = match key.as_bytes().first() {
            Some(b'U') => issued.users,
            Some(b'R') => issued.threads,
            Some(b'S') => issued.segments,
            Some(b'D') => issued.defined,
            _ => return false,
        };
        key[1..].parse::<u32>().is_ok_and(|number| number >= count)
    });
    unknown.map(str::to_string)
}

fn denied(judgement: &Judgement) -> String {
    let opening = judgement.opening(&PRESENT);
    let withdrawn = judgement.withdrawn();
    format!("{opening} It denies, and a deny beats every grant.{withdrawn}")
}

/// Names the keys that are missing, of several products those of the nearest.
fn not_granted(judgement: &Judgement) -> String {
    let operation = words::operations(judgement.operation);
    let segment = &judgement.segment_said;
    let Some((lock, product)) = judgement.nearest() else {
        return format!("No lock grants {operation} on {segment}.");
    };
    let against = product.against().join("; ");
    let products: usize = judgement.grants().map(|tried| tried.products.len()).sum();
    match (judgement.grants().count(), products) {
        (1, 1) => format!("{against}."),
        (1, products) => {
            format!("Lock {lock} has {products} products, and none opens. Nearest: {against}.")
        }
        (locks, _) => format!(
            "None of the {locks} locks that grant {operation} on {segment} opens. \
             Nearest is lock {lock}: {against}."
        ),
    }
}
