//! The office program against the reference, byte by byte, on generated files:
//! readable ones, damaged ones, too long ones and no bytes at all.

use compare::office::program;
use reference::guard::Guard;
use reference::journal::{self, Record};
use reference::limits::MAX_JOURNAL_BYTES;
use std::fs;
use std::io::Write;
use std::path::Path;
use std::process::{Command, Stdio};
use std::thread;
use testing::calls::{Caller, WORLDS};
use testing::journals;
use testing::random::Random;
use testing::tightness;
use testing::withdrawals;

/// What the program prints for a file that comes in these pieces.
fn printed(program: &Path, pieces: [&[u8]; 2]) -> Vec<u8> {
    let mut running = Command::new(program)
        .stdin(Stdio::piped())
        .stdout(Stdio::piped())
        .spawn()
        .expect("the program starts");
    let mut input = running.stdin.take().expect("it has an input");
    let output = thread::scope(|scope| {
        scope.spawn(move || {
            for piece in pieces {
                // The program may have seen enough of a file that is too long.
                let _ = input.write_all(piece);
            }
        });
        running.wait_with_output().expect("the program ends")
    });
    assert!(output.status.success(), "{}", output.status);
    output.stdout
}

/// The lesson that README replays prints document 01's sixteen lines.
#[test]
fn the_lesson_of_the_route() {
    let lesson = concat!(env!("CARGO_MANIFEST_DIR"), "/../../lessons/route.kld");
    let lesson = fs::read(lesson).expect("the lesson");
    let lines = "0 U ok 0\n1 S ok 0\n2 S ok 1\n3 N ok 0\n4 N ok 1\n5 N ok 2\n6 L ok 0\n7 L ok 1\n\
                 8 L ok 2\n9 C ok 0\n10 C ok 1\n11 C ok 1\n12 A ok 2\n13 A no 15 0\n14 R ok 1\n\
                 15 A no 15 0\n";
    assert_eq!(printed(&program(), [&lesson, b""]), lines.as_bytes());
}

/// Arguments change nothing, and it says so, with no byte that a terminal would
/// take for a command.
#[test]
fn arguments_are_ignored_and_told() {
    let output = Command::new(program())
        .args([
            "lessons/route.kld",
            "-x\x1b[31m\u{e9}",
            "",
            &"a".repeat(4_097),
        ])
        .stdin(Stdio::null())
        .output()
        .expect("the program starts");
    assert_eq!(output.stdout, b"file no 16\n");
    let told = |name: &str| {
        format!("replay reads standard input alone, and ignores the argument: {name}\n")
    };
    let expected = ["lessons/route.kld", "-x?[31m??", "", ""]
        .map(told)
        .concat();
    assert_eq!(String::from_utf8_lossy(&output.stderr), expected);
}

/// Both must print the same. Answers what.
fn agreed(program: &Path, random: &mut Random, file: &[u8]) -> Vec<u8> {
    let (first, rest) = file.split_at(random.below(file.len() + 1));
    let printed = printed(program, [first, rest]);
    let expected = reference::replay(file);
    if printed != expected {
        let shown = |bytes: &[u8]| String::from_utf8_lossy(bytes).into_owned();
        let file = file.escape_ascii();
        panic!(
            "{} expected and {} given for {file}",
            shown(&expected),
            shown(&printed)
        );
    }
    printed
}

/// The records of a list of calls, as many of them as a file takes.
fn list_file(random: &mut Random) -> Vec<u8> {
    let world = &WORLDS[random.below(WORLDS.len())];
    let mut guard = Guard::new();
    let mut caller = Caller::new(random, world);
    let mut records: Vec<Record> = Vec::new();
    let mut size = journal::HEAD_BYTES;
    for _ in 0..caller.length() {
        let record = caller.next_call();
        size += record.size();
        if size > MAX_JOURNAL_BYTES {
            break;
        }
        let answer = guard.call(record.letter, record.a, record.b, record.c, &record.text);
        if let Ok(answer) = answer {
            caller.learn(&record, answer);
        }
        match journal::fits(&record) {
            true => records.push(record),
            false => size -= record.size(),
        }
    }
    journal::write(&records)
}

/// A file of more bytes than a file may have, now and then with a wrong head.
fn too_long(random: &mut Random) -> Vec<u8> {
    let size = match random.below(3) {
        0 => MAX_JOURNAL_BYTES + 1,
        1 => MAX_JOURNAL_BYTES + random.between(2, 20),
        _ => random.between(MAX_JOURNAL_BYTES + 1, 3 * MAX_JOURNAL_BYTES),
    };
    let mut file = journals::whole_of_size(random, size.min(4 * 16_000));
    file.resize(size, 0);
    if random.one_in(3) {
        file[random.below(journal::HEAD_BYTES)] ^= 1 << random.below(8);
    }
    file
}

#[test]
fn no_bytes_at_all() {
    let printed = printed(&program(), [b"", b""]);
    assert_eq!(printed, b"file no 16\n");
}

#[test]
fn generated_files() {
    let program = program();
    let mut random = Random::new(41);
    // Files that print lines, those that print nothing, and the three refusals.
    let (mut lines, mut nothing, mut refusals) = (0, 0, [0; 3]);
    for turn in 0..4_000 {
        let file = match turn % 20 {
            0..7 => list_file(&mut random),
            7 => journal::write(&withdrawals::list(&mut random)),
            8 => journal::write(&tightness::list(&mut random)),
            9..11 => journals::whole(&mut random),
            11..17 => journals::damaged(&mut random),
            17 => {
                let mut file = list_file(&mut random);
                let place = random.below(file.len());
                file[place] ^= 1 << random.below(8);
                file
            }
            18 => {
                let size = MAX_JOURNAL_BYTES - random.pick(&[0, 0, 1, 9]);
                journals::whole_of_size(&mut random, size)
            }
            _ => too_long(&mut random),
        };
        match &agreed(&program, &mut random, &file)[..] {
            b"" => nothing += 1,
            b"file no 16\n" => refusals[0] += 1,
            b"file no 17\n" => refusals[1] += 1,
            b"file no 18\n" => refusals[2] += 1,
            _ => lines += 1,
        }
    }
    println!("{lines} files with lines, {nothing} with none, {refusals:?} refused by 16, 17, 18");
    assert!(lines > 1_500 && nothing > 50);
    assert!(refusals[0] > 50 && refusals[1] > 50 && refusals[2] > 500);
}
