//! Times full replays by both guards, in one run, and prints a table of each
//! kind: the replay alone, in this process, and the office program against one
//! of the reference. It fails where the proved guard is slower.
//!
//! `bench/run` at the top of the repository runs it.

mod journals;

use bench::scratch::Directory;
use bench::timing::{ROUNDS, measure};
use compare::guard::{Guard, coded};
use compare::office;
use journals::Journal;
use reference::journal::walk;
use rotundaaloe::Record;
use rotundaaloe::journal::Records;
use std::env;
use std::fs::{self, File};
use std::hint::black_box;
use std::io;
use std::path::Path;
use std::process::{Command, ExitCode, Stdio};
use std::time::{Duration, Instant};

/// The most that proved time / reference time may be.
const LIMIT: f64 = 1.0;
/// How often each program is started on each file.
const RUNS: usize = 200;

/// The proved guard's answers to a file's records, by the functions for C.
fn proved_answers(file: &[u8], answers: &mut Vec<u32>) {
    answers.clear();
    let Ok(records) = Records::open(file) else {
        return;
    };
    let mut guard = Guard::new();
    for record in records {
        let Record {
            letter, a, b, c, ..
        } = record;
        answers.push(guard.call(letter, a, b, c, record.text));
    }
}

/// The reference's answers to a file's records, coded as the proved guard's are.
fn reference_answers(file: &[u8], answers: &mut Vec<u32>) {
    answers.clear();
    let mut guard = reference::guard::Guard::new();
    // A file that is refused has no answers.
    let _ = walk(file, |letter, [a, b, c], text| {
        answers.push(coded(guard.call(letter, a, b, c, text)));
    });
}

/// Prints the table of replays in this process. Answers how many are slower.
fn print_replays(journals: &[Journal]) -> usize {
    println!("### The replay in one process\n");
    println!(
        "A file is checked, its records are read and answered one after the other from the empty \
         state on, and the answers are written to a vector; no line is made. Least mean of \
         {ROUNDS} alternating rounds, in microseconds a file. The ratio may be at most {LIMIT}.\n"
    );
    println!("| Journal | Bytes | Records | Accepted | Proved µs | Reference µs | Ratio |");
    println!("|---|---:|---:|---:|---:|---:|---:|");
    let mut slow = 0;
    for journal in journals {
        let file = &journal.bytes[..];
        let (mut proved, mut reference) = (Vec::new(), Vec::new());
        proved_answers(file, &mut proved);
        reference_answers(file, &mut reference);
        assert!(proved == reference, "the answers differ: {}", journal.name);
        assert_eq!(proved.len(), journal.records);
        let times = measure(
            || proved_answers(black_box(file), black_box(&mut proved)),
            || reference_answers(black_box(file), black_box(&mut reference)),
        );
        let above = times.ratio() > LIMIT;
        slow += usize::from(above);
        println!(
            "| {} | {} | {} | {} | {:.0} | {:.0} | {:.2}{} |",
            journal.name,
            file.len(),
            journal.records,
            journal.accepted,
            times.proved / 1_000.0,
            times.reference / 1_000.0,
            times.ratio(),
            if above { " !" } else { "" },
        );
    }
    slow
}

/// How long a program takes on a file, from its start to its end.
fn run(program: &Path, file: &Path) -> io::Result<Duration> {
    let input = File::open(file)?;
    let start = Instant::now();
    let status = Command::new(program)
        .stdin(input)
        .stdout(Stdio::null())
        .status()?;
    let time = start.elapsed();
    assert!(status.success(), "{}: {status}", program.display());
    Ok(time)
}

fn printed(program: &Path, file: &Path) -> io::Result<Vec<u8>> {
    let input = File::open(file)?;
    Ok(Command::new(program).stdin(input).output()?.stdout)
}

/// The least and the median.
fn least_and_median(times: &mut [Duration]) -> [f64; 2] {
    times.sort_unstable();
    [times[0], times[times.len() / 2]].map(|time| time.as_secs_f64() * 1e6)
}

/// Prints the table of programs. Answers how many of the limited are slower.
fn print_programs(journals: &[Journal]) -> io::Result<usize> {
    println!("\n### The office program\n");
    println!(
        "`target/bin/replay` and the same program with the reference, from start to end, on the \
         same file and to `/dev/null`; both print the same bytes. {RUNS} runs each, \
         alternating, in microseconds. The ratio of the least may be at most {LIMIT} for a full \
         file; the one without records shows what starting takes.\n"
    );
    println!(
        "| Journal | Proved least | Reference least | Ratio | Proved median | Reference median | \
         Ratio |"
    );
    println!("|---|---:|---:|---:|---:|---:|---:|");
    let proved = office::program();
    let reference = env::current_exe()?.with_file_name("reference_replay");
    let directory = Directory::new("replays")?;
    let path = directory.path().join("journal");
    let empty = Journal {
        name: "no records",
        bytes: reference::journal::write(&[]),
        records: 0,
        accepted: 0,
    };
    let mut slow = 0;
    for journal in journals.iter().chain([&empty]) {
        fs::write(&path, &journal.bytes)?;
        let expected = reference::replay(&journal.bytes);
        assert!(printed(&proved, &path)? == expected, "{}", journal.name);
        assert!(printed(&reference, &path)? == expected, "{}", journal.name);
        let (mut proved_times, mut reference_times) = (Vec::new(), Vec::new());
        for _ in 0..RUNS {
            proved_times.push(run(&proved, &path)?);
            reference_times.push(run(&reference, &path)?);
        }
        let [least, median] = least_and_median(&mut proved_times);
        let [reference_least, reference_median] = least_and_median(&mut reference_times);
        let ratio = least / reference_least;
        let above = journal.records > 0 && ratio > LIMIT;
        slow += usize::from(above);
        println!(
            "| {} | {least:.0} | {reference_least:.0} | {ratio:.2}{} | {median:.0} | \
             {reference_median:.0} | {:.2} |",
            journal.name,
            if above { " !" } else { "" },
            median / reference_median,
        );
    }
    Ok(slow)
}

fn main() -> io::Result<ExitCode> {
    let journals = journals::all();
    let slow = print_replays(&journals) + print_programs(&journals)?;
    if slow > 0 {
        println!("\n{slow} full replays are above {LIMIT}.");
        return Ok(ExitCode::FAILURE);
    }
    println!("\nEvery full replay is at least as fast as the reference's.");
    Ok(ExitCode::SUCCESS)
}
