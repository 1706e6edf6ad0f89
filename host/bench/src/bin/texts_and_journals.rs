//! Times both guards on the same formula texts and journals, in one run, and
//! prints a table of each.
//!
//! `bench/run` at the top of the repository runs it. It fails where the proved
//! guard takes more than [`TEXT_LIMIT`] times as long as the reference on a text
//! of two keys or more, or more than [`JOURNAL_LIMIT`] times on a journal.

use bench::timing::{ROUNDS, Times, measure};
use compare::Rows;
use compare::journal::{ACCEPTED, END, RECORD, Values};
use reference::Issued;
use reference::journal::{HEAD_BYTES, Record, Step, append, check, record_at, write};
use std::hint::black_box;
use std::process::ExitCode;
use testing::calls::bare;
use testing::random::Random;
use testing::shapes::texts;

/// The most that proved time / reference time may be on a text.
const TEXT_LIMIT: f64 = 1.0;
/// The most that it may be on a journal.
const JOURNAL_LIMIT: f64 = 1.5;

/// Whether the times on a text are limited: it has two keys or more.
fn is_limited(text: &str) -> bool {
    text.matches(['U', 'R', 'S', 'D']).count() >= 2
}

const ISSUED: Issued = Issued::ALL;

fn proved(text: &[u8], rows: &mut Rows) {
    black_box(compare::compile(black_box(text), black_box(&ISSUED), rows));
    black_box(rows);
}

fn reference(text: &[u8]) {
    let _ = black_box(reference::formula::compile(
        black_box(text),
        black_box(&ISSUED),
    ));
}

/// Prints a table's row, with the number that the table has in its third column
/// and the limit on the ratio, if it has one. Answers whether it is missed.
fn print_row(name: &str, bytes: usize, third: u32, times: &Times, limit: Option<f64>) -> bool {
    let ratio = times.ratio();
    let missed = limit.is_some_and(|limit| ratio > limit);
    println!(
        "| {name} | {bytes} | {third} | {:.0} | {:.0} | {ratio:.2}{} | {} |",
        times.proved,
        times.reference,
        if missed { " !" } else { "" },
        limit.map_or(String::new(), |limit| limit.to_string()),
    );
    missed
}

fn shortened(text: &str) -> String {
    let text = if text.len() <= 40 {
        text.to_string()
    } else {
        format!("{}..{}", &text[..24], &text[text.len() - 14..])
    };
    // A bar would end the table's cell.
    text.replace('|', "\\|")
}

/// What both sides answer.
fn agreed_answer(text: &[u8]) -> u32 {
    let answer = compare::compile(text, &ISSUED, &mut Rows::default());
    let expected = match reference::formula::compile(text, &ISSUED) {
        Ok(products) => products.len() as u32,
        Err(refusal) => refusal.number(),
    };
    assert_eq!(answer, expected, "{}", text.escape_ascii());
    answer
}

/// Prints the formula texts' table. Answers how many rows are too slow.
fn print_texts() -> usize {
    println!(
        "Both sides take a slice of bytes and four counts. The proved guard fills 64 cells in \
         place and allocates nothing; the reference makes a tree and a vector of products on \
         the heap and frees them. Least mean of {ROUNDS} rounds, in nanoseconds a call. Answers \
         to 8 are numbers of products, those from 11 refusals. Texts of one key have no limit.\n"
    );
    println!("| Text | Bytes | Answer | Proved ns | Reference ns | Ratio | Limit |");
    println!("|---|---:|---:|---:|---:|---:|---:|");
    let mut slow = 0;
    for text in texts() {
        let bytes = text.as_bytes();
        let answer = agreed_answer(bytes);
        let limit = is_limited(&text).then_some(TEXT_LIMIT);
        let mut rows = Rows::default();
        let times = measure(|| proved(bytes, &mut rows), || reference(bytes));
        let name = format!("`{}`", shortened(&text));
        slow += usize::from(print_row(&name, bytes.len(), answer, &times, limit));
    }
    slow
}

/// The most records of 9 bytes that a file holds, their letters drawn from
/// these.
fn file_without_texts(letters: &[u8]) -> Vec<u8> {
    let mut random = Random::new(1);
    let records: Vec<Record> = (0..7_280).map(|_| bare(random.pick(letters), 0)).collect();
    let file = write(&records);
    assert_eq!(file.len(), 65_527);
    file
}

/// The most records with the longest text that a file holds.
fn file_of_longest_texts() -> Vec<u8> {
    let file = write(&vec![bare(b'L', 96); 624]);
    assert_eq!(file.len(), 65_527);
    file
}

/// Checking a whole file. Neither side makes anything of its records.
fn measure_check(file: &[u8]) -> Times {
    let mut cursor = 0;
    assert_eq!(compare::journal::open(file, &mut cursor), ACCEPTED);
    assert_eq!(check(file), Ok(()));
    measure(
        || {
            black_box(compare::journal::open(black_box(file), &mut cursor));
        },
        || {
            let _ = black_box(check(black_box(file)));
        },
    )
}

/// The proved guard from a file's first record to its end: how many there are.
fn proved_walk(file: &[u8]) -> u32 {
    let mut values = Values::default();
    let (mut records, mut cursor) = (0, HEAD_BYTES);
    loop {
        match compare::journal::next(file, &mut cursor, &mut values) {
            RECORD => records += 1,
            answer => {
                assert_eq!(answer, END);
                return records;
            }
        }
        black_box(&values);
    }
}

/// The reference from a file's first record to its end: how many there are.
fn reference_walk(file: &[u8]) -> u32 {
    let (mut records, mut cursor) = (0, HEAD_BYTES);
    loop {
        match black_box(&record_at(file, cursor)) {
            Step::Record { text, .. } => cursor = text.end,
            step => {
                assert_eq!(*step, Step::End);
                return records;
            }
        }
        records += 1;
    }
}

fn measure_walk(file: &[u8]) -> Times {
    assert_eq!(proved_walk(file), reference_walk(file));
    measure(
        || {
            black_box(proved_walk(black_box(file)));
        },
        || {
            black_box(reference_walk(black_box(file)));
        },
    )
}

/// A file's record count, for putting it back after an append.
const COUNT: std::ops::Range<usize> = 5..7;

/// Appending one record. Both sides put the count back for the next call; the
/// record's bytes may stay, since they are behind the file.
fn measure_append(file: &[u8], record: &Record) -> Times {
    let mut buffer = file.to_vec();
    buffer.resize(1_024, 0);
    let (mut proved, mut reference) = (buffer.clone(), buffer);
    let count = [file[5], file[6]];
    let times = measure(
        || {
            proved[COUNT].copy_from_slice(&count);
            let mut length = file.len();
            let buffer = black_box(&mut proved);
            let answer = compare::journal::append(buffer, &mut length, black_box(record));
            assert_eq!(black_box((answer, length)).0, ACCEPTED);
        },
        || {
            reference[COUNT].copy_from_slice(&count);
            let buffer = black_box(&mut reference);
            let answer = append(buffer, file.len(), black_box(record));
            assert!(black_box(answer).is_ok());
        },
    );
    assert_eq!(proved, reference);
    times
}

/// Prints the journals' table. Answers how many rows are too slow.
fn print_journals() -> usize {
    println!(
        "\nBoth sides take a slice of bytes, and neither allocates. Checking is one call for the \
         whole file; reading is a call for each record and one for the end; appending checks \
         the file first. Least mean of {ROUNDS} rounds, in nanoseconds for what the row says.\n"
    );
    println!("| Journal | Bytes | Records | Proved ns | Reference ns | Ratio | Limit |");
    println!("|---|---:|---:|---:|---:|---:|---:|");
    let ten = write(&[
        bare(b'U', 0),
        bare(b'N', 0),
        bare(b'N', 0),
        bare(b'K', 0),
        bare(b'G', 0),
        bare(b'L', 5),
        bare(b'L', 2),
        bare(b'S', 0),
        bare(b'C', 0),
        bare(b'A', 0),
    ]);
    let calls = file_without_texts(b"C");
    let mixed = file_without_texts(b"USENKGTDCRA");
    let locks = file_of_longest_texts();
    let rows = [
        ("check, one letter", &calls, measure_check(&calls)),
        ("check, eleven letters", &mixed, measure_check(&mixed)),
        ("check, longest texts", &locks, measure_check(&locks)),
        ("read, one letter", &calls, measure_walk(&calls)),
        ("read, eleven letters", &mixed, measure_walk(&mixed)),
        ("read, longest texts", &locks, measure_walk(&locks)),
        (
            "append without text",
            &ten,
            measure_append(&ten, &bare(b'R', 0)),
        ),
        (
            "append, longest text",
            &ten,
            measure_append(&ten, &bare(b'L', 96)),
        ),
    ];
    let mut slow = 0;
    for (name, file, times) in rows {
        let records = reference_walk(file);
        let limit = Some(JOURNAL_LIMIT);
        slow += usize::from(print_row(name, file.len(), records, &times, limit));
    }
    slow
}

fn main() -> ExitCode {
    let slow = print_texts() + print_journals();
    if slow > 0 {
        println!("\n{slow} rows are above their limits.");
        return ExitCode::FAILURE;
    }
    ExitCode::SUCCESS
}
