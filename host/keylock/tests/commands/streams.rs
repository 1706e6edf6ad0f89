//! Standard input and output: closed, full, or without a reader.

use crate::commands::{Directory, ONE_USER, feed, fine, keylock, refused, shell};
use std::fs::{self, File};
use std::process::{Command, Stdio};

#[test]
fn a_reader_that_goes_away() {
    for arguments in [
        &["run"][..],
        &["trace"],
        &["locks", "-", "0", "0"],
        &["key", "-", "0", "U0"],
    ] {
        let mut child = Command::new(env!("CARGO_BIN_EXE_keylock"))
            .args(arguments)
            .stdin(Stdio::piped())
            .stdout(Stdio::piped())
            .stderr(Stdio::piped())
            .spawn()
            .unwrap();
        drop(child.stdout.take());
        feed(&mut child, &b"U\n".repeat(7_280));
        let output = child.wait_with_output().unwrap();
        assert_eq!(String::from_utf8_lossy(&output.stderr), "");
        assert_eq!(output.status.code(), Some(0));
    }
}

#[test]
fn a_full_disk() {
    let directory = Directory::new("full");
    let text = directory.file("a.txt");
    fs::write(&text, "U").unwrap();
    for command in [
        &["asm", &text][..],
        &["run", &text],
        &["trace", &text],
        &["trace", "--html", &text],
        &["locks", &text, "0", "0"],
        &["key", &text, "0", "U0"],
        &["--help"],
        &["--version"],
    ] {
        let full = File::options().write(true).open("/dev/full").unwrap();
        let mut program = Command::new(env!("CARGO_BIN_EXE_keylock"));
        let output = program.args(command).stdout(full).output().unwrap();
        let complaint = String::from_utf8_lossy(&output.stderr);
        assert_eq!(
            complaint,
            "keylock: standard output: No space left on device\n"
        );
        assert_eq!(output.status.code(), Some(2));
    }
    let right = "keylock: /dev/full: No space left on device\n";
    refused(&keylock(&["asm", &text, "-o", "/dev/full"], b""), 2, right);
}

/// What can't be printed is no success.
#[test]
fn an_output_that_is_not_open() {
    let directory = Directory::new("closed");
    fs::write(directory.path().join("text"), "U").unwrap();
    fs::write(directory.path().join("file"), ONE_USER).unwrap();
    fs::write(directory.path().join("other"), "").unwrap();
    let right = "keylock: standard output: Bad file descriptor\n";
    for arguments in [
        "asm text",
        "dis file",
        "run text",
        "run file text",
        "trace text",
        "trace --html text",
        "locks text 0 0",
        "key text 0 U0",
        "--help",
        "help asm",
        "run --help",
        "--version",
    ] {
        // Closed, and open for reading only.
        for output in [">&-", "1< other"] {
            let line = format!("keylock {arguments} {output}");
            refused(&shell(&line, directory.path()), 2, right);
        }
    }
}

#[test]
fn an_input_that_is_not_open() {
    let directory = Directory::new("no-input");
    let right = "keylock: standard input: Bad file descriptor\n";
    for command in [
        "asm",
        "dis",
        "run",
        "run -",
        "trace",
        "trace --html",
        "locks - 0 0",
        "key - 0 U0",
    ] {
        // Closed, and open for writing only.
        for input in ["<&-", "0> none"] {
            let line = format!("keylock {command} {input}");
            refused(&shell(&line, directory.path()), 2, right);
        }
    }
}

/// A stream that isn't used may be closed, or nobody's.
#[test]
fn streams_that_do_not_matter() {
    let directory = Directory::new("unused");
    fs::write(directory.path().join("text"), "U").unwrap();
    for line in [
        "keylock asm text -o out <&- >&- 2>&-",
        "keylock asm text -o out >&-",
        "echo U | keylock asm -o out >&-",
        "keylock asm text > out 2>&- <&-",
    ] {
        fine(&shell(line, directory.path()), "");
        let out = directory.path().join("out");
        assert_eq!(fs::read(&out).unwrap(), ONE_USER, "{line}");
        fs::remove_file(out).unwrap();
    }
    fine(
        &shell("keylock run text <&-", directory.path()),
        "0 U ok 0\n",
    );
    // As programs without a terminal are started.
    fine(&shell("keylock run text > /dev/null", directory.path()), "");
    fine(
        &shell("keylock run text 1<> /dev/null", directory.path()),
        "",
    );
    let empty = shell("keylock asm 0<> /dev/null", directory.path());
    assert_eq!(
        (empty.output.as_slice(), empty.status),
        (&b"KLD\x02\0\0\0"[..], 0)
    );
}
