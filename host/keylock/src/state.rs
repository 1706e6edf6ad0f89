//! A state file for people: what stands in it, or why it is refused.

mod damage;
mod table;

pub use damage::explain;

use crate::figures::{counted, grouped};
use crate::words::operations;
use rotundaaloe::formula::{Key, Product};
use rotundaaloe::view::{Lock, Segment, Thread};
use rotundaaloe::{Guard, Kind, Left, Operations};
use table::table;

/// Its live threads, segments and standing locks, and what is left of each
/// number.
pub fn shown(guard: &Guard) -> String {
    let handed_out = guard.segments();
    let parts = [
        threads(&guard.threads()),
        segments(&handed_out),
        locks(&handed_out),
        left(guard.left()),
    ];
    parts.join("\n")
}

fn headline(number: usize, noun: &str) -> String {
    match number {
        0 => format!("no {noun}s"),
        _ => counted(number, noun),
    }
}

fn threads(threads: &[Thread]) -> String {
    let row = |thread: &Thread| {
        let calls = thread.frames.iter();
        let calls = calls.map(|frame| frame.segment.0.to_string());
        [
            thread.number.0.to_string(),
            thread.user.0.to_string(),
            joined(calls, " "),
            keys(&thread.keys()),
        ]
    };
    table(
        &headline(threads.len(), "live thread"),
        ["thread", "user", "open calls, newest first", "keys"],
        threads.iter().map(row),
    )
}

fn segments(segments: &[Segment]) -> String {
    let row = |segment: &Segment| {
        let kind = match segment.kind {
            Kind::Code => "code",
            Kind::Sheet => "sheet",
        };
        [
            segment.number.0.to_string(),
            kind.to_string(),
            segment.owner.0.to_string(),
            keys(&segment.keys),
        ]
    };
    table(
        &headline(segments.len(), "segment"),
        ["segment", "kind", "owner", "key list"],
        segments.iter().map(row),
    )
}

fn locks(segments: &[Segment]) -> String {
    let mut locks: Vec<(u16, &Lock)> = Vec::new();
    for segment in segments {
        let standing = segment.locks.iter();
        locks.extend(standing.map(|lock| (segment.number.0, lock)));
    }
    locks.sort_by_key(|(_, lock)| lock.number);
    let row = |(segment, lock): &(u16, &Lock)| {
        let Operations(set) = lock.operations;
        let effect = if set & 8 == 0 { "grant" } else { "deny" };
        let products = lock.products.iter().map(product);
        [
            lock.number.0.to_string(),
            segment.to_string(),
            effect.to_string(),
            operations(set & 7),
            joined(products, " | "),
        ]
    };
    table(
        &headline(locks.len(), "standing lock"),
        ["lock", "segment", "effect", "operations", "formula"],
        locks.iter().map(row),
    )
}

/// One without a literal stands in no state that calls lead to.
fn product(product: &Product) -> String {
    match product.literals() {
        [] => "always".to_string(),
        _ => product.to_string(),
    }
}

fn left(left: Left) -> String {
    let Left {
        users,
        threads,
        segments,
        keys,
        locks,
    } = left;
    let numbers = [users, threads, segments, keys, locks];
    table(
        "left to hand out",
        ["users", "threads", "segments", "keys", "locks"],
        [numbers.map(|number| grouped(number as usize))].into_iter(),
    )
}

fn keys<'a>(keys: impl IntoIterator<Item = &'a Key>) -> String {
    joined(keys.into_iter().map(Key::to_string), " ")
}

/// A dash where there is nothing.
fn joined(words: impl Iterator<Item = String>, joint: &str) -> String {
    let words: Vec<String> = words.collect();
    match words.is_empty() {
        true => "-".to_string(),
        false => words.join(joint),
    }
}
