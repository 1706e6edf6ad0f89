//! Files that are written: replaced whole, through links, and never the input.

use crate::commands::{self, Directory, ONE_USER, fine, keylock, refused, shell};
use std::fs;
use std::os::unix::fs::{FileTypeExt, PermissionsExt, symlink};
use std::path::Path;
use std::process::Command;

/// Not by its other names either.
#[test]
fn the_input_is_not_written_over() {
    let directory = Directory::new("over");
    let [text, link] = ["a.txt", "link"].map(|name| directory.file(name));
    fs::write(&text, "U # a comment").unwrap();
    symlink(&text, &link).unwrap();
    for command in [&["asm"][..], &["dis"], &["trace"], &["trace", "--html"]] {
        for [from, to] in [[&text, &text], [&text, &link], [&link, &text]] {
            let right = format!("keylock: {to} is the input: write to another file\n");
            let arguments = [command, &[from.as_str(), "-o", to.as_str()]].concat();
            refused(&keylock(&arguments, b""), 2, &right);
        }
    }
    assert_eq!(fs::read_to_string(&text).unwrap(), "U # a comment");
}

/// Nor where it is standard input or output.
#[test]
fn the_input_is_not_written_over_by_any_name() {
    let directory = Directory::new("names-of-input");
    let in_it = |name: &str| directory.path().join(name);
    fs::write(in_it("text"), "U # a comment").unwrap();
    fs::hard_link(in_it("text"), in_it("hard")).unwrap();
    symlink("text", in_it("soft")).unwrap();
    for (arguments, to) in [
        ("asm - -o text < text", "text"),
        ("asm -o text < text", "text"),
        ("asm -o soft < text", "soft"),
        ("asm -o hard < text", "hard"),
        ("asm -o text < hard", "text"),
        ("asm -o text < soft", "text"),
        ("asm hard -o text", "text"),
        ("asm /dev/stdin -o text < text", "text"),
        ("asm /proc/self/fd/0 -o text < text", "text"),
        ("asm -o /dev/stdin < text", "/dev/stdin"),
        ("asm text -o /dev/stdout >> text", "/dev/stdout"),
        ("dis -o text < text", "text"),
        ("trace -o text < text", "text"),
        ("trace --html -o text < text", "text"),
        ("asm text >> text", "standard output"),
        ("dis text >> soft", "standard output"),
        ("run text >> hard", "standard output"),
        ("run /dev/null text >> text", "standard output"),
        ("run < text >> text", "standard output"),
        ("trace text 1<> text", "standard output"),
        ("locks text 0 0 >> text", "standard output"),
        ("locks - 0 0 < text >> soft", "standard output"),
        ("key text 0 U0 >> text", "standard output"),
        ("key - 0 U0 < text >> soft", "standard output"),
    ] {
        let ran = shell(&format!("keylock {arguments}"), directory.path());
        let (complaint, status) = (ran.complaint.as_str(), ran.status);
        let right = format!("keylock: {to} is the input: write to another file\n");
        assert!(complaint.ends_with(&right), "{arguments}: {complaint}");
        assert_eq!((ran.printed().as_str(), status), ("", 2), "{arguments}");
        let kept = fs::read_to_string(in_it("text")).unwrap();
        assert_eq!(kept, "U # a comment", "{arguments}");
    }
    assert_eq!(directory.names(), ["hard", "soft", "text"]);
}

/// What links lead to is made, and the links stay.
#[test]
fn links_to_what_is_not_there_yet() {
    let directory = Directory::new("dangling");
    let in_it = |name: &str| directory.path().join(name);
    fs::create_dir(in_it("below")).unwrap();
    symlink("made", in_it("link")).unwrap();
    symlink("below/link", in_it("first")).unwrap();
    symlink("../again", in_it("below/link")).unwrap();
    symlink(in_it("absolute"), in_it("far")).unwrap();
    for (link, made) in [("link", "made"), ("first", "again"), ("far", "absolute")] {
        let ran = shell(&format!("echo U | keylock asm -o {link}"), directory.path());
        fine(&ran, "");
        assert_eq!(fs::read(in_it(made)).unwrap(), ONE_USER, "{link}");
        fs::remove_file(in_it(made)).unwrap();
        // By its whole name too.
        fine(&keylock(&["asm", "-o", &directory.file(link)], b"U"), "");
        assert_eq!(fs::read(in_it(made)).unwrap(), ONE_USER, "{link}");
        assert!(fs::symlink_metadata(in_it(link)).unwrap().is_symlink());
    }
    assert!(
        fs::symlink_metadata(in_it("below/link"))
            .unwrap()
            .is_symlink()
    );
    let names = ["absolute", "again", "below", "far", "first", "link", "made"];
    assert_eq!(directory.names(), names);
}

#[test]
fn links_that_lead_nowhere() {
    let directory = Directory::new("nowhere");
    let in_it = |name: &str| directory.path().join(name);
    symlink("two", in_it("one")).unwrap();
    symlink("one", in_it("two")).unwrap();
    symlink("no/such", in_it("lost")).unwrap();
    symlink("made/", in_it("slash")).unwrap();
    for (link, complaint) in [
        ("one", "Too many levels of symbolic links"),
        ("lost", "No such file or directory"),
        ("slash", "Not a directory"),
        ("lost/", "Not a directory"),
    ] {
        let out = directory.file(link);
        let right = format!("keylock: {out}: {complaint}\n");
        refused(&keylock(&["asm", "-o", &out], b"U"), 2, &right);
    }
    for (link, to) in [("one", "two"), ("two", "one"), ("lost", "no/such")] {
        assert_eq!(fs::read_link(in_it(link)).unwrap(), Path::new(to));
    }
    assert_eq!(directory.names(), ["lost", "one", "slash", "two"]);
}

/// Where no file may grow, an old one stays and no other is left.
#[test]
fn a_file_that_cannot_grow() {
    let directory = Directory::new("grow");
    let [text, out] = ["a.txt", "out"].map(|name| directory.file(name));
    fs::write(&text, "U").unwrap();
    fs::write(&out, "old").unwrap();
    let limited = "trap '' XFSZ; ulimit -f 0; exec \"$0\" asm \"$1\" -o \"$2\"";
    let mut shell = Command::new("sh");
    let keylock = env!("CARGO_BIN_EXE_keylock");
    let ran = commands::run(shell.args(["-c", limited, keylock, &text, &out]));
    refused(&ran, 2, &format!("keylock: {out}: File too large\n"));
    assert_eq!(fs::read(&out).unwrap(), b"old");
    assert_eq!(directory.names(), ["a.txt", "out"]);
}

#[test]
fn what_cannot_be_read_or_written() {
    let directory = Directory::new("unwritable");
    let path = directory.file("");
    let missing = directory.file("no/such");
    let right = format!("keylock: {missing}: No such file or directory\n");
    refused(&keylock(&["run", &missing], b""), 2, &right);
    refused(&keylock(&["asm", "-o", &missing], b"U"), 2, &right);
    let right = format!("keylock: {path}: Is a directory\n");
    refused(&keylock(&["dis", &path], b""), 2, &right);
    refused(&keylock(&["asm", "-o", &path], b"U"), 2, &right);
    assert!(directory.names().is_empty());
}

#[test]
fn an_old_file_keeps_its_kind() {
    let directory = Directory::new("kinds");
    let [real, link] = ["real", "link"].map(|name| directory.file(name));
    fs::write(&real, "old").unwrap();
    fs::set_permissions(&real, fs::Permissions::from_mode(0o640)).unwrap();
    symlink(&real, &link).unwrap();
    fine(&keylock(&["asm", "-o", &link], b"U"), "");
    assert_eq!(fs::read(&real).unwrap(), ONE_USER);
    assert!(fs::symlink_metadata(&link).unwrap().is_symlink());
    assert_eq!(
        fs::metadata(&real).unwrap().permissions().mode() & 0o777,
        0o640
    );
    fine(&keylock(&["asm", "-o", "/dev/null"], b"U"), "");
    let device = fs::symlink_metadata("/dev/null").unwrap().file_type();
    assert!(device.is_char_device());
    // Standard output by its other name, which leads to a pipe.
    let ran = keylock(&["asm", "-o", "/dev/stdout"], b"U");
    assert_eq!((ran.output.as_slice(), ran.status), (ONE_USER, 0));
    assert!(fs::symlink_metadata("/dev/stdout").unwrap().is_symlink());
}
