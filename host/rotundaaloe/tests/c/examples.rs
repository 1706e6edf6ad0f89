//! The examples for C, built as the page for hosts says, print what document 01
//! grants and refuses.

use crate::compiler::{built, printed_text, scratch, top};
use rotundaaloe::{Guard, Journal};
use std::fs;
use std::path::{Path, PathBuf};
use std::process::Command;

fn example(name: &str) -> PathBuf {
    let source = top().join("host/examples").join(name).with_extension("c");
    built(&source, &scratch(&format!("example-{name}")))
}

#[track_caller]
fn run(program: &Path, file: &Path) -> String {
    printed_text(Command::new(program).arg(file).output().expect("it starts"))
}

/// What a program that fails says on standard error, while it prints nothing.
#[track_caller]
fn complaint(program: &Path, file: &Path) -> String {
    let output = Command::new(program).arg(file).output().expect("it starts");
    assert!(!output.status.success());
    assert_eq!(output.stdout, b"");
    String::from_utf8(output.stderr).expect("text")
}

#[test]
fn the_route() {
    let output = Command::new(example("route")).output().expect("it starts");
    assert_eq!(
        printed_text(output),
        "by way of the rate loader: saved, lock 2 opened\n\
         the recalculation by itself: not saved, no way in (15)\n\
         after the return: not saved, no way in (15)\n"
    );
}

/// What it prints, and that its journal says the same by the guard in Rust.
#[test]
fn a_journal() {
    let program = example("journal");
    let file = program.with_extension("kld");
    assert_eq!(run(&program, &file), "accepted\nno way in\n");
    let bytes = fs::read(file).expect("the journal was written");
    let journal = Journal::from_bytes(&bytes).expect("a journal");
    let mut guard = Guard::new();
    let answers: Vec<Result<u16, u32>> = journal
        .records()
        .map(|record| guard.call(record).map_err(|refusal| refusal.number()))
        .collect();
    let made = [0, 0, 0, 1, 0, 1, 1, 0, 1].map(Ok);
    assert_eq!(answers, [made.as_slice(), &[Err(15)]].concat());
}

#[test]
fn the_records() {
    let journal = top().join("lessons/route.kld");
    assert_eq!(
        run(&example("records"), &journal),
        "0 U 0 0 0 \n1 S 0 0 0 \n2 S 0 0 0 \n3 N 0 0 0 \n4 N 0 0 0 \n5 N 0 1 0 \n\
         6 L 0 0 1 U0\n7 L 0 1 1 U0\n8 L 0 2 4 S0&S1\n9 C 0 0 0 \n10 C 0 1 0 \n11 C 1 1 0 \n\
         12 A 0 2 4 \n13 A 1 2 4 \n14 R 0 0 0 \n15 A 0 2 4 \n"
    );
}

/// Of a refused file nothing is told but the refusal.
#[test]
fn the_records_of_a_damaged_journal() {
    let source = top().join("host/examples/records.c");
    let program = built(&source, &scratch("example-records-damaged"));
    let bytes = fs::read(top().join("lessons/route.kld")).expect("the journal");
    let with = |place: usize, byte: u8| {
        let mut bytes = bytes.clone();
        bytes[place] = byte;
        bytes
    };
    let last = bytes.len() - 1;
    for (name, bytes, refusal) in [
        ("mark", with(0, b'k'), "not a desk file (16)"),
        ("version", with(3, 1), "other version (17)"),
        ("count", with(5, 1), "broken file (18)"),
        ("last", with(last, 1), "broken file (18)"),
        ("cut", bytes[..last].to_vec(), "broken file (18)"),
    ] {
        let file = program.with_file_name(name);
        fs::write(&file, bytes).expect("the file is written");
        let expected = format!("{}: {refusal}\n", file.display());
        assert_eq!(complaint(&program, &file), expected);
    }
}

/// Each start goes on where the last one ended; a damaged file is refused and
/// left as it is, and nothing else is left behind.
#[test]
fn a_state() {
    let program = example("state");
    let directory = program.with_file_name("kept");
    fs::create_dir(&directory).expect("a new directory");
    let file = directory.join("office.kls");
    for thread in 0..3 {
        assert_eq!(run(&program, &file), format!("thread {thread}\n"));
    }
    let mut bytes = fs::read(&file).expect("a state file");
    bytes[5_000] ^= 1;
    fs::write(&file, &bytes).expect("it is written to");
    let expected = format!("{}: broken file\n", file.display());
    assert_eq!(complaint(&program, &file), expected);
    assert_eq!(fs::read(&file).expect("the same file"), bytes);
    assert_eq!(fs::read_dir(&directory).expect("files").count(), 1);
}
