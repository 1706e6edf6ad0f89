//! The longest inputs: handled in a time that grows as they do, and in little
//! memory.

use crate::commands::{Directory, Ran, feed, ran, spawn};
use std::fs;
use std::process::{Command, Stdio};

/// The most that the command reads.
const MOST: usize = 8 << 20;

/// As long as an input may be: a start, something again and again, and an end.
fn long(start: &[u8], again: &[u8], end: &[u8]) -> Vec<u8> {
    let length = MOST - start.len() - end.len();
    let middle = again.iter().copied().cycle().take(length);
    let bytes = start.iter().copied().chain(middle);
    bytes.chain(end.iter().copied()).collect()
}

/// Runs the command on these bytes, with 10 seconds of a processor, which a time
/// that grows with the square would pass by far, and 128 MiB.
fn limited(arguments: &[&str], input: &[u8]) -> Ran {
    let limits = "ulimit -t 10; ulimit -v 131072; exec \"$0\" \"$@\"";
    let mut shell = Command::new("sh");
    shell.args(["-c", limits, env!("CARGO_BIN_EXE_keylock")]);
    let mut child = spawn(shell.args(arguments).stdin(Stdio::piped()));
    feed(&mut child, input);
    ran(child)
}

/// Every subcommand, with the end of what it complains of.
fn refused_by_all(bytes: &[u8], complaint: &str) {
    for arguments in [
        &["asm"][..],
        &["run"],
        &["trace"],
        &["trace", "--html"],
        &["locks", "-", "0", "0"],
        &["key", "-", "0", "U0"],
    ] {
        let ran = limited(arguments, bytes);
        assert_eq!((ran.printed().as_str(), ran.status), ("", 1));
        assert!(ran.complaint.ends_with(complaint), "{}", ran.complaint);
    }
    let ran = limited(&["dis"], bytes);
    assert_eq!((ran.printed().as_str(), ran.status), ("", 1));
    let right = "a journal begins with KLD (16 not a desk file)\n";
    assert!(ran.complaint.ends_with(right), "{}", ran.complaint);
}

const ONE: &str = "1 mistake; nothing was written\n";

#[test]
fn a_long_quoted_text() {
    let start = b"L 0 0 1 \"";
    refused_by_all(&long(start, b"a", b""), ONE);
    refused_by_all(&long(start, b"a", b"\" -> no 11 0\n"), ONE);
    for again in [&b"\\\""[..], b"\\x41", "\u{E9}\u{9375}".as_bytes()] {
        let ran = limited(&["run"], &long(start, again, b"\""));
        assert!(ran.complaint.ends_with(ONE), "{}", ran.complaint);
    }
    let ran = limited(&["run"], &long(start, b"a", b"\xFF\""));
    let told = "keylock: standard input:1:8388607: no UTF-8 here: write \\xFF\n";
    assert!(ran.complaint.contains(told), "{}", ran.complaint);
}

#[test]
fn many_wrong_lines() {
    let many = "\nand 4,194,284 more\n4,194,304 mistakes; nothing was written\n";
    refused_by_all(&long(b"", b"x\n", b""), many);
    refused_by_all(&long(b"", b"\xFF\n", b""), many);
    let ran = limited(&["run"], &long(b"", b"S\n", b""));
    assert!(ran.complaint.ends_with(many), "{}", ran.complaint);
    let ran = limited(&["run"], &long(b"", b"L 0 0 1 \"\n", b" "));
    let many = "838,861 mistakes; nothing was written\n";
    assert!(ran.complaint.ends_with(many), "{}", ran.complaint);
}

/// 7,280 calls fill a journal; the next is told, and no other.
#[test]
fn many_right_lines() {
    let ran = limited(&["run"], &long(b"", b"U\n", b""));
    let told = "keylock: standard input:7281:1: the journal is full here: 7,280 calls, ";
    assert!(ran.complaint.contains(told), "{}", ran.complaint);
    assert!(ran.complaint.ends_with(ONE), "{}", ran.complaint);
}

#[test]
fn long_words() {
    for again in [&b"a"[..], b"7", b"!", b"(", b"->", b"\r", b"\xFF", b"//"] {
        for start in [&b""[..], b"S ", b"L 0 0 1 ", b"U -> "] {
            let ran = limited(&["run"], &long(start, again, b""));
            let complaint = ran.complaint;
            assert!(complaint.ends_with(ONE), "{complaint}");
            assert!(complaint.len() < 1_000, "{complaint}");
        }
    }
}

#[test]
fn no_text_at_all() {
    let sign = "nor a text journal: line 1, column 1 is a NUL byte: no text has one\n";
    refused_by_all(&long(b"", b"\0", b""), sign);
    let file = long(b"KLD\x02\0\xFF\xFF", b"\x8D\x01U\0", b"");
    for command in ["run", "trace", "dis"] {
        let ran = limited(&[command], &file);
        let right = ": 8,388,608 bytes, over 65,535 (18 broken file)\n";
        assert!(ran.complaint.ends_with(right), "{}", ran.complaint);
        assert_eq!(ran.status, 1);
    }
}

#[test]
fn nothing_but_comments() {
    for again in [&b"\n"[..], b"\r\n", b"#\n", b"# a remark\n", b"#\xFF"] {
        for arguments in [&["run"][..], &["trace"], &["trace", "--html"]] {
            let ran = limited(arguments, &long(b"", again, b""));
            assert_eq!((ran.complaint.as_str(), ran.status), ("", 0));
        }
    }
}

/// Texts of comments that would pass the memory, were they kept.
#[test]
fn many_texts_at_once() {
    let directory = Directory::new("many-texts");
    let file = directory.file("text");
    let text = long(b"U -> ok 0\n", b"# a comment, and no more\n", b"");
    fs::write(&file, text).expect("the text is written");
    let mut arguments = vec!["run"];
    arguments.resize(20, &file);
    let ran = limited(&arguments, b"");
    assert_eq!(ran.status, 0, "{}", ran.complaint);
    assert_eq!(ran.printed().matches("0 U ok 0\n").count(), 19);
}
