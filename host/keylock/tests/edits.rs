//! A text from before version 2, whose edits name users: the first edit whose
//! thread no S above it can have started gets a note, and all else stays as it is.

#[expect(dead_code, reason = "other tests use the rest")]
mod commands;

use commands::{Directory, Ran, fine, keylock};
use keylock::{edits, text};
use std::fs;

const SINCE: &str = "Since version 2 the edits N, K, G, T, L and D name a thread, \
                     not a user: start one with S first";

fn note(text: &str) -> Option<(usize, String)> {
    edits::note(&text::parse(text.as_bytes()).expect("no mistake"))
}

#[track_caller]
fn noted(text: &str, line: usize, what: &str) {
    assert_eq!(note(text), Some((line, format!("{what}. {SINCE}"))));
}

#[test]
fn each_edit_without_an_s() {
    for (letter, fields) in [
        ('N', "0 1"),
        ('K', "0"),
        ('G', "0 1 2"),
        ('T', "0 1 2"),
        ('L', "0 1 4 U0"),
        ('D', "0 1"),
    ] {
        let call = format!("{letter} {fields}\n");
        let what = format!("{letter} names thread 0, and no S stands above it");
        noted(&format!("# An office\n\nU\n  {call}"), 4, &what);
        noted(&format!("{call}S 0\n{call}"), 1, &what);
        assert_eq!(note(&format!("U\nS 0\n{call}")), None, "{letter}");
    }
}

#[test]
fn the_first_that_names_more_than_was_started() {
    let one = "K names thread 1, and only 1 S stands above it";
    noted("U\nU\nS 0\nN 0 1\nK 1\nS 0\nK 7\n", 5, one);
    let two = "D names thread 2, and only 2 S stand above it";
    noted("S 0\nS 0\nN 1 0\nD 2 0\n", 4, two);
    let most = "N names thread 65535, and no S stands above it";
    noted("N 65535 0\n", 1, most);
}

/// Threads that have ended, S lines that are refused, and calls that named a
/// thread in version 1 too.
#[test]
fn texts_without_a_note() {
    for text in [
        "",
        "# nothing\n",
        "U\nS 0\nE 0\nN 0 0\n",
        "S 9\nN 0 0\n",
        "U\nS 3\nE 0\nC 1 0\nR 2\nA 3 0 2\n",
    ] {
        assert_eq!(note(text), None, "{text}");
    }
}

/// Who writes the refusal down means it.
#[test]
fn an_edit_that_expects_the_refusal() {
    let what = "N names thread 0, and no S stands above it";
    assert_eq!(note("U\nN 0 0 -> no 2 0\nD 5 0 -> no 2 0\n"), None);
    noted("U\nN 0 0 -> no 2 0\nN 0 0\n", 3, what);
    for expected in ["ok 0", "ok 2", "no 1 0", "no 2 1", "no 20 0"] {
        noted(&format!("N 0 0 -> {expected}\n"), 1, what);
    }
}

const OLD: &str = "U\nN 0 1\nK 0\nS 0\n";
const ANSWERS: &str = "0 U ok 0\n1 N no 2 0\n2 K no 2 0\n3 S ok 0\n";

/// The note, once, and no fault.
#[track_caller]
fn fine_but_noted(ran: &Ran, name: &str) {
    let right = format!("{name}:2: note: N names thread 0, and no S stands above it. {SINCE}\n");
    assert_eq!((ran.complaint.as_str(), ran.status), (right.as_str(), 0));
}

#[test]
fn every_subcommand_that_reads_a_text() {
    let name = "standard input";
    let ran = |arguments: &[&str]| {
        let ran = keylock(arguments, OLD.as_bytes());
        fine_but_noted(&ran, name);
        ran
    };
    assert_eq!(ran(&["run"]).printed(), ANSWERS);
    let file = ran(&["asm"]).output;
    let right = b"KLD\x02\0\x04\0U\0\0\0\0\0\0\0\0N\0\0\x01\0\0\0\0\0K\0\0\0\0\0\0\0\0\
                  S\0\0\0\0\0\0\0\0";
    assert_eq!(file, right);
    let why = "Thread 0 was never started. Only a live thread edits, for its user.";
    assert!(ran(&["trace"]).printed().contains(why));
    assert!(ran(&["trace", "--html"]).printed().ends_with("</html>\n"));
    assert_eq!(ran(&["locks", "-", "0", "0"]).printed(), "no 3 0\n");
    assert_eq!(ran(&["key", "-", "0", "U0"]).printed(), "none\n");
    // A file has its version, and needs no note.
    fine(&keylock(&["run"], &file), ANSWERS);
    let text = keylock(&["dis"], &file);
    fine(&text, &text.printed());
}

/// The note stands before what is told of expected answers.
#[test]
fn a_note_and_expected_answers() {
    let ran = keylock(&["run"], b"U -> ok 0\nN 0 1 -> ok 0\n");
    assert_eq!(ran.printed(), "0 U ok 0\n1 N no 2 0\n");
    let right = format!(
        "standard input:2: note: N names thread 0, and no S stands above it. {SINCE}\n\
         standard input:2: expected ok 0, the guard answers no 2 0\n\
         standard input: 2 expected answers, 1 not given\n"
    );
    assert_eq!((ran.complaint, ran.status), (right, 1));
}

#[test]
fn a_note_for_each_file() {
    let directory = Directory::new("notes");
    let [old, new] = ["old.txt", "new.txt"].map(|name| directory.file(name));
    fs::write(&old, OLD).unwrap();
    fs::write(&new, "U\nS 0\nN 0 1\n").unwrap();
    let ran = keylock(&["run", &new, &old], b"");
    let right = format!("== {new} ==\n0 U ok 0\n1 S ok 0\n2 N ok 0\n== {old} ==\n{ANSWERS}");
    assert_eq!(ran.printed(), right);
    fine_but_noted(&ran, &old);
}
