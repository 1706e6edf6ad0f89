//! What the office program prints, against document 01.

use reference::journal::{Record, write};
use reference::replay;

fn record(letter: u8, a: u16, b: u16, c: u16, text: &str) -> Record {
    let text = text.as_bytes().to_vec();
    Record {
        letter,
        a,
        b,
        c,
        text,
    }
}

#[test]
fn the_worked_example_prints_its_lines() {
    let file = write(&[
        record(b'U', 0, 0, 0, ""),
        record(b'S', 0, 0, 0, ""),
        record(b'S', 0, 0, 0, ""),
        record(b'N', 0, 0, 0, ""),
        record(b'N', 0, 0, 0, ""),
        record(b'N', 0, 1, 0, ""),
        record(b'L', 0, 0, 1, "U0"),
        record(b'L', 0, 1, 1, "U0"),
        record(b'L', 0, 2, 4, "S0&S1"),
        record(b'C', 0, 0, 0, ""),
        record(b'C', 0, 1, 0, ""),
        record(b'C', 1, 1, 0, ""),
        record(b'A', 0, 2, 4, ""),
        record(b'A', 1, 2, 4, ""),
        record(b'R', 0, 0, 0, ""),
        record(b'A', 0, 2, 4, ""),
    ]);
    let lines = "0 U ok 0\n1 S ok 0\n2 S ok 1\n3 N ok 0\n4 N ok 1\n5 N ok 2\n6 L ok 0\n7 L ok 1\n\
                 8 L ok 2\n9 C ok 0\n10 C ok 1\n11 C ok 1\n12 A ok 2\n13 A no 15 0\n14 R ok 1\n\
                 15 A no 15 0\n";
    assert_eq!(String::from_utf8_lossy(&replay(&file)), lines);
}

/// As journals began while edits named a user.
#[test]
fn an_edit_without_a_thread_is_refused() {
    let file = write(&[
        record(b'U', 0, 0, 0, ""),
        record(b'N', 0, 0, 0, ""),
        record(b'K', 0, 0, 0, ""),
        record(b'G', 0, 0, 0, ""),
        record(b'T', 0, 0, 0, ""),
        record(b'L', 0, 0, 1, "U0"),
        record(b'D', 0, 0, 0, ""),
        record(b'S', 0, 0, 0, ""),
        record(b'N', 0, 0, 0, ""),
    ]);
    let lines = "0 U ok 0\n1 N no 2 0\n2 K no 2 0\n3 G no 2 0\n4 T no 2 0\n5 L no 2 0\n\
                 6 D no 2 0\n7 S ok 0\n8 N ok 0\n";
    assert_eq!(String::from_utf8_lossy(&replay(&file)), lines);
}

#[test]
fn a_file_without_records_prints_nothing() {
    assert_eq!(replay(&[0x4B, 0x4C, 0x44, 2, 0, 0, 0]), b"");
}

#[test]
fn a_lock_that_denies_is_the_second_number() {
    let file = write(&[
        record(b'U', 0, 0, 0, ""),
        record(b'S', 0, 0, 0, ""),
        record(b'N', 0, 0, 0, ""),
        record(b'L', 0, 0, 1, "U0"),
        record(b'L', 0, 0, 9, "U0"),
        record(b'C', 0, 0, 0, ""),
    ]);
    let printed = replay(&file);
    assert!(printed.ends_with(b"4 L ok 1\n5 C no 14 1\n"));
}

#[test]
fn an_unreadable_file_prints_its_refusal_alone() {
    let readable = write(&[record(b'U', 0, 0, 0, "")]);
    assert_eq!(replay(&readable), b"0 U ok 0\n");
    assert_eq!(replay(b""), b"file no 16\n");
    assert_eq!(replay(b"KLX\x02\0\0\0"), b"file no 16\n");
    assert_eq!(replay(b"KLD\x02\0\0"), b"file no 18\n");
    assert_eq!(replay(b"KLD\x01\0\0\0"), b"file no 17\n");
    assert_eq!(replay(b"KLD\x03\0\0\0"), b"file no 17\n");
    assert_eq!(replay(&readable[..readable.len() - 1]), b"file no 18\n");
    assert_eq!(replay(&[&readable[..], b"\0"].concat()), b"file no 18\n");
}
