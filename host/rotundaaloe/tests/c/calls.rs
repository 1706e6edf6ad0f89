//! C and Rust agree on every call: a program in C replays journals by the twelve
//! functions.

use crate::compiler::{built_here, fed, printed_text, scratch, top};
use crate::journals::{drawn, lesson};
use rotundaaloe::{Guard, Journal, Letter};
use std::collections::BTreeSet;
use std::fs;
use std::process::Command;

/// The office program's lines, by the guard in Rust.
fn replayed(journal: &Journal) -> String {
    let mut guard = Guard::new();
    let mut lines = String::new();
    for (place, record) in journal.records().enumerate() {
        let letter = char::from(record.letter);
        let answer = match guard.call(record) {
            Ok(answer) => format!("ok {answer}"),
            Err(refusal) => format!("no {} {}", refusal.number(), refusal.second()),
        };
        lines.push_str(&format!("{place} {letter} {answer}\n"));
    }
    lines
}

/// What the lessons say that a guard must answer, the guard in C does.
#[test]
fn lessons() {
    let program = built_here("calls.c", &scratch("lessons"));
    let mut tried = 0;
    for entry in fs::read_dir(top().join("lessons")).expect("lessons") {
        let path = entry.expect("a lesson").path();
        if path.extension().is_none_or(|extension| extension != "txt") {
            continue;
        }
        let (journal, lines) = lesson(&fs::read_to_string(&path).expect("text"));
        let output = fed(&mut Command::new(&program), journal.as_bytes());
        assert_eq!(printed_text(output), lines, "{}", path.display());
        tried += 1;
    }
    assert!(tried >= 9, "{tried} lessons");
}

/// Each letter is accepted in them and refused, and a deny lock opens.
#[test]
fn drawn_journals() {
    let program = built_here("calls.c", &scratch("drawn"));
    let mut seen = BTreeSet::new();
    for seed in 1..=20 {
        let journal = drawn(seed);
        let lines = replayed(&journal);
        let output = fed(&mut Command::new(&program), journal.as_bytes());
        assert_eq!(printed_text(output), lines, "seed {seed}");
        seen.extend(lines.lines().map(|line| {
            let words: Vec<&str> = line.split(' ').collect();
            (words[1].to_owned(), words[2].to_owned())
        }));
        seen.extend(
            lines
                .lines()
                .filter(|line| line.contains(" no 14 "))
                .map(|_| ("14".to_owned(), "no".to_owned())),
        );
    }
    assert_eq!(seen.len(), 2 * Letter::ALL.len() + 1, "{seen:?}");
}
