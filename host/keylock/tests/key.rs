//! `keylock key`: which open call hands a key over, worked out by hand from
//! document 02, P3 and P5, and on random journals against the history.

#[expect(dead_code, reason = "other tests use the rest")]
mod commands;
#[expect(dead_code, reason = "other tests use the rest")]
mod journals;
mod questions;

use commands::{Directory, TRIAL, fine, keylock, refused};
use journals::{borrowed, random_journal};
use questions::asked_of_an_input_at_fault;
use reference::history::History;
use reference::{Key, Kind};
use rotundaaloe::Guard;
use std::collections::BTreeMap;
use std::fs;
use testing::calls::WORLDS;
use testing::random::Random;

/// Parts 0 and 1 hand over D0, part 1 D1 too, and D2 is in no part's list. D0 is
/// taken from part 0 while two calls of it are open. Thread 0's open calls are then,
/// the newest first: S0, S0, S1 D0 D1 and S0. Thread 1 has ended, and thread 2 has
/// no open call.
const OFFICE: &str = "\
U
U
S 0
S 0
S 1
N 0 0
N 0 0
N 0 1
K 0
K 0
K 0
G 0 0 0
G 0 1 0
G 0 1 1
G 0 2 2
L 0 0 1 U0
L 0 1 1 U0
C 0 0
C 0 1
C 0 0
T 0 0 0
C 0 0
C 1 1
E 1
C 2 0 -> no 15 0
";

/// Runs `keylock key` on the office's text and some calls more.
#[track_caller]
fn finds_after(more: &str, thread: &str, key: &str, printed: &str) {
    let journal = format!("{OFFICE}{more}");
    let ran = keylock(&["key", "-", thread, key], journal.as_bytes());
    fine(&ran, &format!("{printed}\n"));
}

#[track_caller]
fn finds(thread: &str, key: &str, printed: &str) {
    finds_after("", thread, key, printed);
}

#[test]
fn the_newest_call_that_hands_the_key_over() {
    finds("0", "S0", "ok 0");
    finds("0", "D0", "ok 2");
    finds("0", "S1", "ok 2");
    finds("0", "D1", "ok 2");
}

#[test]
fn keys_that_no_open_call_hands_over() {
    // Held, but by the thread itself.
    for [thread, key] in [["0", "U0"], ["0", "R0"], ["2", "U1"], ["2", "R2"]] {
        finds(thread, key, "none");
    }
    // Of a sheet, in a sheet's list, and others' identity keys.
    for key in ["S2", "D2", "U1", "R1", "R2"] {
        finds("0", key, "none");
    }
    // Never handed out.
    for key in [
        "S3", "D3", "U2", "R3", "S65535", "D65535", "U65535", "R65535",
    ] {
        finds("0", key, "none");
    }
    for key in ["S0", "S1", "D0", "D1"] {
        finds("2", key, "none");
    }
}

#[test]
fn threads_that_are_not_live() {
    for thread in ["1", "3", "64", "65535"] {
        for key in ["S0", "D0", "U0", "R1", "D65535"] {
            finds(thread, key, "no 2 0");
        }
    }
    let nobody = keylock(&["key", "-", "0", "S0"], b"KLD\x02\0\0\0");
    fine(&nobody, "no 2 0\n");
}

/// A return takes the newest away.
#[test]
fn after_returns() {
    for (returns, places) in [
        (
            1,
            [
                ("S0", "ok 0"),
                ("D0", "ok 1"),
                ("S1", "ok 1"),
                ("D1", "ok 1"),
            ],
        ),
        (
            2,
            [
                ("S0", "ok 1"),
                ("D0", "ok 0"),
                ("S1", "ok 0"),
                ("D1", "ok 0"),
            ],
        ),
        (
            3,
            [
                ("S0", "ok 0"),
                ("D0", "none"),
                ("S1", "none"),
                ("D1", "none"),
            ],
        ),
        (
            4,
            [
                ("S0", "none"),
                ("D0", "none"),
                ("S1", "none"),
                ("D1", "none"),
            ],
        ),
    ] {
        let more = "R 0\n".repeat(returns);
        for (key, printed) in places {
            finds_after(&more, "0", key, printed);
        }
    }
    finds_after("E 0\n", "0", "S0", "no 2 0");
}

/// An open call loses what is taken from its part, and what is given again comes
/// with a new call.
#[test]
fn after_a_key_is_taken() {
    for (more, d0, d1) in [
        ("T 0 1 0\n", "none", "ok 2"),
        ("T 0 1 1\n", "ok 2", "none"),
        ("T 0 1 0\nG 0 1 0\n", "none", "ok 2"),
        ("T 0 1 0\nG 0 1 0\nC 0 1\n", "ok 0", "ok 0"),
        ("T 0 1 0\nG 0 1 0\nC 0 1\nR 0\n", "none", "ok 2"),
        ("T 0 1 0\nC 0 1\n", "none", "ok 0"),
        ("G 0 0 0\nC 0 0\nT 0 1 0\n", "ok 0", "ok 3"),
        ("G 0 0 0\nC 0 0\nT 0 0 0\n", "ok 3", "ok 3"),
        // Refused: by another user, and from a list without the key.
        ("T 2 1 0\n", "ok 2", "ok 2"),
        ("T 0 0 1\n", "ok 2", "ok 2"),
    ] {
        finds_after(more, "0", "D0", d0);
        finds_after(more, "0", "D1", d1);
    }
}

/// Sixteen open calls, the oldest of which alone hands over S1.
#[test]
fn the_oldest_of_sixteen() {
    let start = "U\nS 0\nN 0 0\nN 0 0\nL 0 0 1 U0\nL 0 1 1 U0\nC 0 1\n";
    for open in 1..=16 {
        let journal = format!("{start}{}", "C 0 0\n".repeat(open - 1));
        let ran = keylock(&["key", "-", "0", "S1"], journal.as_bytes());
        fine(&ran, &format!("ok {}\n", open - 1));
    }
    // A seventeenth is refused.
    let journal = format!("{start}{}", "C 0 0\n".repeat(16));
    let ran = keylock(&["key", "-", "0", "S1"], journal.as_bytes());
    fine(&ran, "ok 15\n");
}

/// Document 01's first worked example: thread 0 has left the recalculation.
#[test]
fn the_route() {
    let find = |thread, key| keylock(&["key", "-", thread, key], TRIAL.as_bytes());
    fine(&find("0", "S0"), "ok 0\n");
    fine(&find("0", "S1"), "none\n");
    fine(&find("1", "S1"), "ok 0\n");
    fine(&find("1", "S0"), "none\n");
    fine(&find("2", "S0"), "no 2 0\n");
}

#[test]
fn a_file_and_a_text_find_the_same() {
    let directory = Directory::new("key");
    let [text, file] = ["-9", "b.kld"].map(|name| directory.file(name));
    fs::write(&text, OFFICE).unwrap();
    fine(&keylock(&["asm", &text, "-o", &file], b""), "");
    for name in [&text, &file] {
        fine(&keylock(&["key", name, "0", "D1"], b""), "ok 2\n");
        fine(&keylock(&["key", "--", name, "0", "U0"], b""), "none\n");
    }
    let found = commands::shell("keylock key -- -9 0 D0", directory.path());
    fine(&found, "ok 2\n");
}

/// `run` compares them.
#[test]
fn expected_answers_are_not_compared() {
    let ran = keylock(&["key", "-", "0", "U0"], b"U -> ok 7\nS 0\n");
    fine(&ran, "none\n");
}

#[test]
fn an_input_at_fault_finds_nothing() {
    asked_of_an_input_at_fault("key", ["0", "S0"]);
}

#[track_caller]
fn wrong(arguments: &[&str], message: &str) {
    let arguments = [&["key"], arguments].concat();
    let right = format!("keylock: {message}\nSee 'keylock key --help'.\n");
    refused(&keylock(&arguments, OFFICE.as_bytes()), 2, &right);
}

#[test]
fn slips() {
    let needs = "key needs a file, a thread and a key";
    for few in [&[][..], &["-"], &["-", "0"], &["0", "S0"]] {
        wrong(few, needs);
    }
    let more = "key takes a file, a thread and a key, 'S1' is one more";
    wrong(&["-", "0", "S0", "S1"], more);
    wrong(&["-", "R0", "S0"], "THREAD: 'R0' is no number");
    wrong(&["-", "", "S0"], "THREAD: '' is no number");
    wrong(&["-", "00", "S0"], "THREAD: leading zero in 00");
    wrong(&["-", "65536", "S0"], "THREAD: 65536 is above 65535");
    wrong(&["-", "S0", "0"], "THREAD: 'S0' is no number");
    wrong(&["-", "-1", "S0"], "unknown option '-1'");
    wrong(&["-", "0", "S0", "--rows", "2"], "unknown option '--rows'");
    wrong(&["-", "0", "S0", "-o", "x"], "unknown option '-o'");
    wrong(&["-", "0", "S0", "--html"], "unknown option '--html'");
}

#[test]
fn no_keys() {
    let no_key = |key: &str, why: &str| {
        wrong(&["-", "0", key], &format!("KEY: '{key}' is no key: {why}"));
    };
    let spelling = "one is U, R, S or D and a number, as S0";
    for key in ["", "0", "S", "7", "S-1", "S+1", "S 0", " S0", "S0 ", "T0"] {
        no_key(key, spelling);
    }
    for key in ["!S0", "(S0)", "S0&S1", "SS0", "S0x", "S1.0", "Sé", "é0"] {
        no_key(key, spelling);
    }
    for key in ["u0", "r0", "s0", "d12"] {
        no_key(key, "its letter is a capital one");
    }
    wrong(&["-", "0", "S00"], "KEY: leading zero in 00");
    wrong(&["-", "0", "D01"], "KEY: leading zero in 01");
    wrong(&["-", "0", "U65536"], "KEY: 65536 is above 65535");
    let long = "99999999999999999999";
    let message = format!("KEY: {long} is above 65535");
    wrong(&["-", "0", &format!("D{long}")], &message);
}

/// What the history says, and the kind of outcome that it is.
fn expected(history: &History, thread: u16, key: Key) -> (String, &'static str) {
    let Some(thread) = history.thread(thread) else {
        return ("no 2 0\n".to_string(), "not live");
    };
    let calls = &thread.open_calls;
    let newest = calls.iter().rposition(|call| call.list.contains(&key));
    match newest.map(|from_the_oldest| calls.len() - 1 - from_the_oldest) {
        None => ("none\n".to_string(), "none"),
        Some(0) => ("ok 0\n".to_string(), "the newest"),
        Some(place) => (format!("ok {place}\n"), "an older one"),
    }
}

/// The live thread with the most open calls mostly.
fn random_thread(random: &mut Random, history: &History) -> u16 {
    let open_calls = |number: &u16| {
        history
            .thread(*number)
            .map(|thread| thread.open_calls.len())
    };
    let deepest = history.live_threads().max_by_key(open_calls);
    match deepest {
        Some(thread) if !random.one_in(4) => thread,
        _ => random.between(0, 9) as u16,
    }
}

/// A key that one of the thread's open calls hands over, if there are any, or one
/// that may be anything.
fn random_key(random: &mut Random, history: &History, thread: u16) -> Key {
    let open_calls = history
        .thread(thread)
        .map_or(&[][..], |thread| &thread.open_calls);
    let handed_over: Vec<Key> = open_calls
        .iter()
        .flat_map(|call| call.list.clone())
        .collect();
    if handed_over.is_empty() || random.one_in(3) {
        return Key {
            kind: random.pick(&Kind::ALL),
            number: random.between(0, 9) as u16,
        };
    }
    random.pick(&handed_over)
}

#[test]
fn random_journals_against_the_history() {
    let mut random = Random::new(3);
    let mut seen = BTreeMap::new();
    for (world, journals) in WORLDS.iter().zip([120, 120, 15, 60, 60]) {
        for place in 0..journals {
            let (mut guard, mut history) = (Guard::new(), History::new());
            let journal = random_journal(&mut random, world, |call| {
                let answer = guard.call(borrowed(call)).ok();
                history.feed(call, answer);
                answer
            });
            for _ in 0..4 {
                let thread = random_thread(&mut random, &history);
                let key = random_key(&mut random, &history, thread);
                let (right, outcome) = expected(&history, thread, key);
                let key = format!("{}{}", char::from(key.kind.letter()), key.number);
                let arguments = ["key", "-", &thread.to_string(), &key];
                let ran = keylock(&arguments, journal.as_bytes());
                let said = format!("{}: {place}, {arguments:?}", world.name);
                assert_eq!((ran.printed(), ran.status), (right, 0), "{said}");
                *seen.entry(outcome).or_insert(0) += 1;
            }
        }
    }
    let outcomes = ["an older one", "none", "not live", "the newest"];
    assert!(seen.keys().eq(&outcomes), "{seen:?}");
    assert!(seen.values().all(|count| *count >= 30), "{seen:?}");
}
