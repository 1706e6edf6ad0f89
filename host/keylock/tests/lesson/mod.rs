//! Small journals, written down as in document 01.

use keylock::steps::{self, Entry, Step};
use rotundaaloe::Record;

/// Document 01's first worked example, with document 02's P4.
pub const ROUTE: &str = "U; S 0; S 0; N 0 0; N 0 0; N 0 1; L 0 0 1 U0; L 0 1 1 U0; \
     L 0 2 4 S0&S1; C 0 0; C 0 1; C 1 1; A 0 2 4; A 1 2 4; R 0; A 0 2 4";

/// The same with names for some things.
pub fn named_route() -> Vec<Entry<'static>> {
    let mut entries = entries(ROUTE);
    for (place, note) in [
        (0, "user 0, the office"),
        (1, "thread 1, of the wrong number"),
        (2, "thread 1, the February closing"),
        (3, "segment 0, the rate loader"),
        (4, "should be refused later!"),
        (5, "segment 2: the totals sheet"),
    ] {
        entries[place].note = Some(note.to_string());
    }
    entries
}

/// As many calls as a journal holds, with the fullest state that there is: a
/// thread with 16 open calls that handed over 8 keys each accesses a sheet with
/// 8 products of 6 keys, all of them shut.
pub fn fullest() -> String {
    let mut calls = ["U", "S 0"].map(str::to_string).to_vec();
    let mut add = |call: String| calls.push(call);
    (0..16).for_each(|_| add("N 0 0".to_string()));
    add("N 0 1".to_string());
    (0..160).for_each(|_| add("K 0".to_string()));
    for segment in 0..16 {
        add(format!("L 0 {segment} 1 U0"));
        (0..7).for_each(|key| add(format!("G 0 {segment} {}", segment * 7 + key)));
    }
    for lock in 0..8 {
        let keys: Vec<String> = (0..6)
            .map(|key| format!("D{}", 112 + lock * 6 + key))
            .collect();
        add(format!("L 0 16 4 {}", keys.join("&")));
    }
    (0..16).for_each(|segment| add(format!("C 0 {segment}")));
    let mut bytes: usize = 7 + calls
        .iter()
        .map(|call| length(&record(call)))
        .sum::<usize>();
    while bytes + 9 <= 65_535 {
        calls.push("A 0 16 4".to_string());
        bytes += 9;
    }
    calls.join("; ")
}

/// A record's bytes in a journal.
fn length(record: &Record) -> usize {
    9 + record.text.len()
}

/// The calls, split at the semicolons.
pub fn entries(calls: &str) -> Vec<Entry<'_>> {
    calls.split("; ").map(|call| record(call).into()).collect()
}

pub fn explained(calls: &str) -> Vec<Step<'_>> {
    let steps: Vec<Step> = steps::explain(entries(calls)).collect();
    for step in &steps {
        assert_eq!(step.disagreement, None, "{}", step.written());
        assert_ne!(step.reason, "", "{}", step.written());
    }
    steps
}

fn record(call: &str) -> Record<'_> {
    let mut parts = call.splitn(5, ' ');
    let letter = parts.next().expect("a letter").as_bytes()[0];
    let mut field = || match parts.next() {
        Some(number) => number.parse().expect("a field"),
        None => 0,
    };
    let [a, b, c] = [field(), field(), field()];
    let text = parts.next().unwrap_or_default().as_bytes();
    Record {
        letter,
        a,
        b,
        c,
        text,
    }
}
