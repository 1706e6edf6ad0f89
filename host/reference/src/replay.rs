//! The office program: what it prints for the bytes that it reads.

use crate::guard::Guard;
use crate::journal;

/// The bytes that are printed for a file: its refusal, or a line for each
/// record, with its place, its letter, and its answer or its refusal.
pub fn replay(file: &[u8]) -> Vec<u8> {
    let records = match journal::read(file) {
        Ok(records) => records,
        Err(refusal) => return format!("file no {}\n", refusal.number()).into_bytes(),
    };
    let mut guard = Guard::new();
    let mut lines = String::new();
    for (place, record) in records.iter().enumerate() {
        let letter = char::from(record.letter);
        let answer = guard.call(record.letter, record.a, record.b, record.c, &record.text);
        let outcome = match answer {
            Ok(answer) => format!("ok {answer}"),
            Err(refusal) => format!("no {} {}", refusal.number(), refusal.second()),
        };
        lines += &format!("{place} {letter} {outcome}\n");
    }
    lines.into_bytes()
}
