//! The proved guard's journals against the reference's: the same answer to a
//! file, the same records at every cursor, and after an append the same bytes.
//!
//! A file is compared by the answer to opening it, by every step of the walk
//! from its first record to the end or to where it is corrupt, by some other
//! cursors, and by the records that the library for Rust gives of it: none where
//! it is refused. [`more_than_a_million_files`] counts the files that
//! differ from all that it compared before: the same bytes count once, however
//! often they are made. The files that appends are tried on aren't in that
//! number.
//!
//! `cargo test --release -- --nocapture` also prints how many files and appends
//! came to which answer.

use compare::journal::{ACCEPTED, CORRUPT, END, RECORD, Values, coded};
use reference::journal::{
    HEAD_BYTES, Record, Refusal, append, check, empty, read, record_at, write,
};
use reference::letter::Letter;
use reference::limits::{MAX_JOURNAL_BYTES, MAX_TEXT_BYTES};
use rotundaaloe::Journal;
use rotundaaloe::journal::Records;
use std::collections::HashSet;
use std::fmt;
use std::hash::{DefaultHasher, Hash, Hasher};
use testing::calls::bare;
use testing::journals::{self, field_mut, names};
use testing::random::Random;
use testing::written::{self, EVERY_LETTER, OFFICE, hex};

const FULL: u32 = 10;
const NOT_JOURNAL: u32 = 16;
const OTHER_VERSION: u32 = 17;

/// What the values hold before a call: no two the same, and none that the guard
/// could write.
const UNTOUCHED: Values = [
    0xA5A5_A5A5_A5A5_A500,
    0xA5A5_A5A5_A5A5_A501,
    0xA5A5_A5A5_A5A5_A502,
    0xA5A5_A5A5_A5A5_A503,
    0xA5A5_A5A5_A5A5_A504,
    0xA5A5_A5A5_A5A5_A505,
];
/// What stands in memory on both sides of what is lent.
const AROUND: u64 = 0x5A5A_5A5A_5A5A_5A5A;
/// A cursor before opening, which no file has.
const UNOPENED: usize = 0xA5A5_A5A5_A5A5_A5A5;

/// A byte for each place of a buffer that isn't written yet, so that a byte in
/// the wrong place shows.
fn unwritten(place: usize) -> u8 {
    (place % 251) as u8 ^ 0xA5
}

/// A file's length and first bytes, for a message.
fn shown(file: &[u8]) -> String {
    let start: Vec<String> = file.iter().take(160).map(|b| format!("{b:02X}")).collect();
    format!("{} bytes: {}", file.len(), start.join(" "))
}

/// The proved guard's answer for what the reference says.
fn number<T>(answer: &Result<T, Refusal>) -> u32 {
    match answer {
        Ok(_) => ACCEPTED,
        Err(refusal) => refusal.number(),
    }
}

/// What is lent to the proved guard, between cells that it must leave.
#[derive(Clone, Copy, Debug, PartialEq, Eq)]
#[repr(C)]
struct Lent {
    before: u64,
    cursor: usize,
    between: u64,
    values: Values,
    after: u64,
}

impl Lent {
    fn at(cursor: usize) -> Lent {
        Lent {
            before: AROUND,
            cursor,
            between: AROUND,
            values: UNTOUCHED,
            after: AROUND,
        }
    }
}

/// Both sides open a file, and a refusal leaves the cursor. Answers what the
/// proved guard says.
fn agreed_open(file: &[u8]) -> u32 {
    let expected = check(file);
    let mut lent = Lent::at(UNOPENED);
    let answer = compare::journal::open(file, &mut lent.cursor);
    assert_eq!(answer, number(&expected), "the answer on {}", shown(file));
    let cursor = if expected.is_ok() { 7 } else { UNOPENED };
    assert_eq!(lent, Lent::at(cursor), "the cursor of {}", shown(file));
    answer
}

/// Both sides at one cursor. Answers what the proved guard says, the cursor
/// after it, and the values.
fn agreed_next(file: &[u8], at: usize) -> (u32, usize, Values) {
    let expected = coded(&record_at(file, at), at, UNTOUCHED);
    let mut lent = Lent::at(at);
    let answer = compare::journal::next(file, &mut lent.cursor, &mut lent.values);
    let given = (answer, lent.cursor, lent.values);
    assert_eq!(given, expected, "at {at} of {}", shown(file));
    let around = [lent.before, lent.between, lent.after];
    assert_eq!(around, [AROUND; 3], "at {at} of {}", shown(file));
    given
}

/// The record that the values describe.
fn record_of(file: &[u8], values: &Values) -> Record {
    let [letter, a, b, c, start, end] = *values;
    Record {
        letter: u8::try_from(letter).expect("a letter has 8 bits"),
        a: u16::try_from(a).expect("a field has 16 bits"),
        b: u16::try_from(b).expect("a field has 16 bits"),
        c: u16::try_from(c).expect("a field has 16 bits"),
        text: file[start as usize..end as usize].to_vec(),
    }
}

/// Both sides from the first record on. Answers the records and how the walk
/// ended, [`END`] or [`CORRUPT`], which it does again when asked again.
fn agreed_walk(file: &[u8]) -> (Vec<Record>, u32) {
    let mut records = Vec::new();
    let mut cursor = HEAD_BYTES;
    loop {
        match agreed_next(file, cursor) {
            (RECORD, next, values) => {
                records.push(record_of(file, &values));
                cursor = next;
            }
            (answer, next, values) => {
                assert_eq!((next, values), (cursor, UNTOUCHED));
                assert_eq!(agreed_next(file, next), (answer, cursor, UNTOUCHED));
                return (records, answer);
            }
        }
    }
}

/// A record of the library for Rust as the reference has it.
fn owned(record: rotundaaloe::Record) -> Record {
    let rotundaaloe::Record {
        letter,
        a,
        b,
        c,
        text,
    } = record;
    let text = text.to_vec();
    Record {
        letter,
        a,
        b,
        c,
        text,
    }
}

/// The library for Rust has the file's records, or none and the refusal where it
/// is refused.
fn library_agrees(file: &[u8], expected: &Result<Vec<Record>, Refusal>) {
    let refused = |refusal| rotundaaloe::Refusal::from(refusal).number();
    let lent: Result<Vec<Record>, u32> = Records::open(file)
        .map(|records| records.map(owned).collect())
        .map_err(refused);
    let kept: Result<Vec<Record>, u32> = Journal::from_bytes(file)
        .map(|journal| journal.records().map(owned).collect())
        .map_err(refused);
    let expected = expected.as_ref().map_err(|refusal| refusal.number());
    assert_eq!(lent.as_ref().map_err(|n| *n), expected, "{}", shown(file));
    assert_eq!(kept.as_ref().map_err(|n| *n), expected, "{}", shown(file));
}

/// Both sides on one file. Answers what they agree on, and how many records
/// were walked over.
fn agreed(file: &[u8], random: &mut Random) -> (u32, u64) {
    let expected = read(file);
    let answer = agreed_open(file);
    assert_eq!(answer, number(&expected), "the answer on {}", shown(file));
    library_agrees(file, &expected);
    let (walked, end) = agreed_walk(file);
    if let Ok(records) = expected {
        assert_eq!(walked, records, "the records of {}", shown(file));
        assert_eq!(end, END, "the end of {}", shown(file));
    }
    let length = file.len();
    for cursor in [0, length, length + 1, usize::MAX] {
        agreed_next(file, cursor);
    }
    for _ in 0..2 {
        agreed_next(file, random.below(length + 10));
    }
    (answer, walked.len() as u64)
}

/// How often each answer came.
#[derive(Default)]
struct Tally {
    accepted: u64,
    full: u64,
    not_journal: u64,
    other_version: u64,
    corrupt: u64,
}

impl Tally {
    fn add(&mut self, answer: u32) {
        let count = match answer {
            ACCEPTED => &mut self.accepted,
            FULL => &mut self.full,
            NOT_JOURNAL => &mut self.not_journal,
            OTHER_VERSION => &mut self.other_version,
            CORRUPT => &mut self.corrupt,
            _ => panic!("{answer} is no answer"),
        };
        *count += 1;
    }

    fn total(&self) -> u64 {
        self.accepted + self.full + self.not_journal + self.other_version + self.corrupt
    }
}

impl fmt::Display for Tally {
    fn fmt(&self, f: &mut fmt::Formatter) -> fmt::Result {
        write!(
            f,
            "{} accepted, {} full, {} not a journal, {} other version, {} corrupt",
            self.accepted, self.full, self.not_journal, self.other_version, self.corrupt,
        )
    }
}

/// Compares files of one kind and counts them.
struct Comparison<'a> {
    random: Random,
    /// The hashes of the files that were compared, those of earlier kinds too.
    /// Two files with one hash would only make the count lower.
    seen: &'a mut HashSet<u64>,
    tally: Tally,
    walked: u64,
}

impl Comparison<'_> {
    /// Compares a file, and answers what both sides agree on.
    fn file(&mut self, file: &[u8]) -> u32 {
        let (answer, walked) = agreed(file, &mut self.random);
        let mut hasher = DefaultHasher::new();
        file.hash(&mut hasher);
        self.seen.insert(hasher.finish());
        self.tally.add(answer);
        self.walked += walked;
        answer
    }

    /// Compares a file for which document 01 leaves no doubt.
    #[track_caller]
    fn file_with(&mut self, file: &[u8], answer: u32) {
        assert_eq!(self.file(file), answer, "{}", shown(file));
    }
}

/// A kind of files: its name, and what makes and compares them.
type Kind = (&'static str, fn(&mut Comparison));

const KINDS: [Kind; 12] = [
    ("whole, and cut at random", whole_and_cut),
    ("small, cut at every length", cut_at_every_length),
    ("small, each byte damaged in turn", each_byte_damaged),
    ("tiny, each byte with every value", every_value_of_each_byte),
    ("damaged in several ways", damaged_in_several_ways),
    ("wrong counts", wrong_counts),
    ("versions", versions),
    ("marks", marks),
    ("near the longest", near_the_longest),
    ("text lengths", text_lengths),
    ("fields", fields),
    ("letters", letters),
];

#[test]
fn more_than_a_million_files() {
    let mut seen = HashSet::new();
    let mut walked = 0;
    for (seed, (name, compare)) in (31..).zip(KINDS) {
        let before = seen.len();
        let mut comparison = Comparison {
            random: Random::new(seed),
            seen: &mut seen,
            tally: Tally::default(),
            walked: 0,
        };
        compare(&mut comparison);
        walked += comparison.walked;
        let (made, tally) = (comparison.tally.total(), comparison.tally);
        let new = seen.len() - before;
        println!("{name}: {made} files, {new} of them new: {tally}");
    }
    println!("{} different files, {walked} records", seen.len());
    assert!(seen.len() >= 1_000_000);
    assert!(walked >= 1_000_000);
}

/// A cut file is a slice of the whole one: a guard that read beyond the slice
/// would find what it lacks.
fn whole_and_cut(comparison: &mut Comparison) {
    for _ in 0..200_000 {
        let file = journals::whole(&mut comparison.random);
        comparison.file_with(&file, ACCEPTED);
        for _ in 0..2 {
            let length = comparison.random.below(file.len());
            comparison.file(&file[..length]);
        }
    }
    assert_eq!(comparison.tally.accepted, 200_000);
}

fn cut_at_every_length(comparison: &mut Comparison) {
    for _ in 0..8_000 {
        let file = journals::small(&mut comparison.random);
        for length in 0..file.len() {
            let answer = if length < 3 { NOT_JOURNAL } else { CORRUPT };
            comparison.file_with(&file[..length], answer);
        }
        comparison.file_with(&file, ACCEPTED);
    }
}

fn each_byte_damaged(comparison: &mut Comparison) {
    for _ in 0..3_000 {
        let mut file = journals::small(&mut comparison.random);
        for place in 0..file.len() {
            let right = file[place];
            let any = comparison.random.bits() as u8;
            for wrong in [
                right ^ 1,
                right ^ 0x20,
                right ^ 0x80,
                right.wrapping_add(1),
                right.wrapping_sub(1),
                0,
                0xFF,
                any,
            ] {
                if wrong != right {
                    file[place] = wrong;
                    comparison.file(&file);
                }
            }
            file[place] = right;
        }
    }
    // A named field's byte and a text's byte may be any, so some are readable.
    let tally = &comparison.tally;
    assert!(tally.accepted > 50_000 && tally.corrupt > 50_000);
    assert!(tally.not_journal > 10_000 && tally.other_version > 10_000);
}

fn every_value_of_each_byte(comparison: &mut Comparison) {
    let tiny = [
        vec![],
        vec![bare(b'U', 0)],
        vec![bare(b'L', 2)],
        vec![bare(b'N', 0), bare(b'A', 0)],
        vec![bare(b'L', 1), bare(b'K', 0), bare(b'L', 9)],
    ];
    for records in tiny {
        let mut file = write(&records);
        for place in 0..file.len() {
            let right = file[place];
            for wrong in (0..=255).filter(|wrong| *wrong != right) {
                file[place] = wrong;
                comparison.file(&file);
            }
            file[place] = right;
        }
    }
    let bytes = [7, 16, 18, 25, 44].iter().sum::<u64>();
    assert_eq!(comparison.tally.total(), bytes * 255);
}

fn damaged_in_several_ways(comparison: &mut Comparison) {
    for _ in 0..300_000 {
        let file = journals::damaged(&mut comparison.random);
        comparison.file(&file);
    }
    let tally = &comparison.tally;
    assert!(tally.accepted > 10_000 && tally.corrupt > 100_000);
    assert!(tally.not_journal > 10_000 && tally.other_version > 10_000);
}

fn wrong_counts(comparison: &mut Comparison) {
    for _ in 0..20_000 {
        let mut file = journals::whole(&mut comparison.random);
        let right = u16::from_le_bytes([file[5], file[6]]);
        let any = comparison.random.bits() as u16;
        for wrong in [
            right.wrapping_add(1),
            right.wrapping_sub(1),
            right.wrapping_add(256),
            right.swap_bytes(),
            0,
            65_535,
            any,
        ] {
            if wrong != right {
                file[5..7].copy_from_slice(&wrong.to_le_bytes());
                comparison.file_with(&file, CORRUPT);
            }
        }
    }
}

fn versions(comparison: &mut Comparison) {
    let nothing = write(&[]);
    let user = write(&[bare(b'U', 0)]);
    let broken = b"KLD\x02\x00\x00\x00X";
    let long = write(&vec![bare(b'K', 0); 7_777]);
    assert_eq!(long.len(), 70_000);
    let with = |file: &[u8], version: u16| {
        let mut file = file.to_vec();
        file[3..5].copy_from_slice(&version.to_le_bytes());
        file
    };
    for version in 0..=65_535 {
        let answer = match version {
            2 => ACCEPTED,
            _ => OTHER_VERSION,
        };
        comparison.file_with(&with(&nothing, version), answer);
        comparison.file_with(&with(&user, version), answer);
    }
    for version in [0, 1, 3, 256, 258, 512, 65_535] {
        for length in 5..7 {
            comparison.file_with(&with(&nothing, version)[..length], CORRUPT);
        }
        for cut in [8, 15] {
            comparison.file_with(&with(&user, version)[..cut], OTHER_VERSION);
        }
        comparison.file_with(&with(broken, version), OTHER_VERSION);
        comparison.file_with(&with(&long, version), OTHER_VERSION);
    }
    comparison.file_with(broken, CORRUPT);
    comparison.file_with(&long, CORRUPT);
}

fn marks(comparison: &mut Comparison) {
    for first in 0..=255 {
        comparison.file_with(&[first], NOT_JOURNAL);
        for second in 0..=255 {
            comparison.file_with(&[first, second], NOT_JOURNAL);
        }
    }
    let user = write(&[bare(b'U', 0)]);
    let longest = write(&vec![bare(b'U', 0); 7_280]);
    let long = write(&vec![bare(b'U', 0); 7_777]);
    for place in 0..3 {
        for wrong in (0..=255).filter(|wrong| *wrong != user[place]) {
            for length in [3, 4, 6, 7, 15, 16] {
                let mut file = user[..length].to_vec();
                file[place] = wrong;
                comparison.file_with(&file, NOT_JOURNAL);
            }
        }
        for file in [&longest, &long] {
            let mut file = file.clone();
            file[place] ^= 0x20;
            comparison.file_with(&file, NOT_JOURNAL);
            // An other version as well.
            file[3] = 1;
            comparison.file_with(&file, NOT_JOURNAL);
        }
    }
    comparison.file_with(&[0; 70_000], NOT_JOURNAL);
}

fn near_the_longest(comparison: &mut Comparison) {
    for length in MAX_JOURNAL_BYTES - 12..=MAX_JOURNAL_BYTES + 12 {
        for _ in 0..8 {
            let mut file = journals::whole_of_size(&mut comparison.random, length);
            let right = length <= MAX_JOURNAL_BYTES;
            comparison.file_with(&file, if right { ACCEPTED } else { CORRUPT });
            comparison.file_with(&file[..length - 1], CORRUPT);
            file.push(0);
            comparison.file_with(&file, CORRUPT);
        }
    }
    // Only records of 9 bytes: the most that a file can have, and one more.
    let mut most = write(&vec![bare(b'R', 0); 7_280]);
    assert_eq!(most.len(), 65_527);
    comparison.file_with(&most, ACCEPTED);
    most.extend([0; 8]);
    comparison.file_with(&most, CORRUPT);
    most.push(0);
    comparison.file_with(&most, CORRUPT);
    comparison.file_with(&write(&vec![bare(b'R', 0); 7_281]), CORRUPT);
    comparison.file_with(&write(&vec![bare(b'R', 0); 65_535]), CORRUPT);
}

/// Every letter with texts of every length to 300, and with lengths whose text
/// isn't there.
fn text_lengths(comparison: &mut Comparison) {
    for letter in Letter::ALL {
        for length in 0..=300 {
            let right = match letter.has_text() {
                true => (1..=MAX_TEXT_BYTES).contains(&length),
                false => length == 0,
            };
            let answer = if right { ACCEPTED } else { CORRUPT };
            let wrong = bare(letter, length);
            comparison.file_with(&write(std::slice::from_ref(&wrong)), answer);
            comparison.file_with(
                &write(&[bare(b'L', MAX_TEXT_BYTES), wrong, bare(b'E', 0)]),
                answer,
            );
        }
        for length in [1, 2, 96, 97, 255, 256, 257, 352, 32_768, 65_280, 65_535] {
            let mut file = write(&[bare(letter, 0)]);
            file[14..16].copy_from_slice(&u16::to_le_bytes(length));
            comparison.file_with(&file, CORRUPT);
            file.push(b'!');
            let right = letter.has_text() && length == 1;
            comparison.file_with(&file, if right { ACCEPTED } else { CORRUPT });
        }
    }
}

/// Every letter with every bit of every field, alone and in a file.
fn fields(comparison: &mut Comparison) {
    for letter in Letter::ALL {
        let text_length = usize::from(letter.has_text());
        for field in 0..3 {
            let answer = match names(letter, field) {
                true => ACCEPTED,
                false => CORRUPT,
            };
            for value in (0..16).map(|bit| 1 << bit).chain([255, 65_280, 65_535]) {
                let mut record = bare(letter, text_length);
                *field_mut(&mut record, field) = value;
                comparison.file_with(&write(std::slice::from_ref(&record)), answer);
                let file = write(&[bare(b'L', 3), record, bare(b'A', 0)]);
                comparison.file_with(&file, answer);
            }
        }
    }
}

/// All 256 letters, with a text and without, with fields and without, at each
/// place of a file.
fn letters(comparison: &mut Comparison) {
    for letter in 0..=255 {
        for text_length in [0, 1, MAX_TEXT_BYTES] {
            for filled in 0..8 {
                let mut record = bare(letter, text_length);
                for field in (0..3).filter(|field| filled >> field & 1 == 1) {
                    *field_mut(&mut record, field) = 2;
                }
                let right = Letter::of(letter).is_some_and(|letter| {
                    (text_length > 0) == letter.has_text()
                        && (0..3).all(|field| filled >> field & 1 == 0 || names(letter, field))
                });
                for place in 0..3 {
                    let mut records = vec![bare(b'L', 2), bare(b'U', 0)];
                    records.insert(place, record.clone());
                    let answer = if right { ACCEPTED } else { CORRUPT };
                    comparison.file_with(&write(&records), answer);
                }
            }
        }
    }
}

/// A buffer, and what lies beyond its end, which nobody may write to.
#[derive(Clone, PartialEq, Eq)]
struct Buffer {
    bytes: Vec<u8>,
    capacity: usize,
}

/// The bytes beyond a buffer that are watched.
const BEYOND: usize = 16;

impl Buffer {
    /// A buffer that starts with this file, or with as much of it as it holds.
    fn with(file: &[u8], capacity: usize) -> Buffer {
        let mut bytes: Vec<u8> = (0..capacity + BEYOND).map(unwritten).collect();
        let length = file.len().min(capacity);
        bytes[..length].copy_from_slice(&file[..length]);
        Buffer { bytes, capacity }
    }

    fn lent(&mut self) -> &mut [u8] {
        &mut self.bytes[..self.capacity]
    }
}

/// Both sides append one record. Every byte of the buffer is compared, and the
/// length. Answers what they agree on.
fn agreed_append(before: &Buffer, length: usize, record: &Record) -> u32 {
    let mut expected_buffer = before.clone();
    let expected = append(expected_buffer.lent(), length, record);
    let expected_length = *expected.as_ref().unwrap_or(&length);
    let mut buffer = before.clone();
    let mut new_length = length;
    let answer = compare::journal::append(buffer.lent(), &mut new_length, record);
    let case = || {
        let (letter, fields) = (record.letter, [record.a, record.b, record.c]);
        let (text, bytes) = (shown(&record.text), shown(&before.bytes));
        let capacity = before.capacity;
        format!("{letter} {fields:?} {text}; at {length} in {capacity} of {bytes}")
    };
    assert_eq!(answer, number(&expected), "the answer, {}", case());
    assert_eq!(new_length, expected_length, "the length, {}", case());
    assert!(buffer == expected_buffer, "the bytes, {}", case());
    if answer != ACCEPTED {
        assert!(buffer == *before, "refused, but written to, {}", case());
    }
    answer
}

/// A file to append to: whole, damaged or cut.
fn file_to_append_to(random: &mut Random) -> Vec<u8> {
    match random.below(8) {
        0 => journals::damaged(random),
        1 => {
            let mut file = journals::small(random);
            file.truncate(random.below(file.len()));
            file
        }
        2 => journals::whole(random),
        _ => journals::small(random),
    }
}

fn record_to_append(random: &mut Random) -> Record {
    if random.one_in(4) {
        journals::unfit_record(random)
    } else {
        journals::record(random, MAX_TEXT_BYTES)
    }
}

#[test]
fn appends() {
    let mut random = Random::new(51);
    let mut tally = Tally::default();
    for _ in 0..500_000 {
        let file = file_to_append_to(&mut random);
        let record = record_to_append(&mut random);
        let need = file.len() + record.size();
        let capacity = match random.below(8) {
            0 | 1 => need,
            2 => need - 1,
            3 => need + 1,
            4 => file.len(),
            5 => random.below(need),
            _ => need + random.below(300),
        };
        let length = match random.below(16) {
            0 => capacity + 1,
            1 => random.pick(&[usize::MAX, usize::MAX - 8, usize::MAX - 105, usize::MAX / 2]),
            2 => random.below(file.len() + 1),
            3 => capacity,
            _ => file.len(),
        };
        let buffer = Buffer::with(&file, capacity);
        tally.add(agreed_append(&buffer, length, &record));
    }
    println!("appends: {tally}");
    assert_eq!(tally.total(), 500_000);
    assert!(tally.accepted > 100_000 && tally.full > 50_000 && tally.corrupt > 100_000);
    assert!(tally.not_journal > 5_000 && tally.other_version > 3_000);
}

/// The answer of a guard that takes a file of version 1 for its own.
fn with_version_1_taken(file: &[u8]) -> u32 {
    let mut file = file.to_vec();
    if let Some(version) = file.get_mut(3..5)
        && version == [1, 0]
    {
        version[0] = 2;
    }
    number(&check(&file))
}

/// By the damaged files that are compared above.
#[test]
fn a_guard_that_takes_version_1_is_found() {
    let mut random = Random::new(56);
    let mut found = 0;
    for _ in 0..30_000 {
        let file = journals::damaged(&mut random);
        let answers = (agreed_open(&file), with_version_1_taken(&file));
        found += usize::from(answers == (OTHER_VERSION, ACCEPTED));
    }
    println!("version 1 taken: {found} files");
    assert!(found > 300, "{found}");
}

/// What fills a file to its longest, and what passes it by a byte, in buffers
/// that hold that and more.
#[test]
fn appends_near_the_longest() {
    let mut random = Random::new(52);
    let mut tally = Tally::default();
    for missing in 0..=120 {
        let length = MAX_JOURNAL_BYTES - missing;
        let file = journals::whole_of_size(&mut random, length);
        let sizes = [9, 10, 105, missing.max(1) - 1, missing, missing + 1];
        for size in sizes.into_iter().filter(|size| (9..=105).contains(size)) {
            let record = journals::record_of_size(&mut random, size);
            let need = length + size;
            for capacity in [need - 1, need, need + 1, 65_535, 65_536, 66_000] {
                let answer = agreed_append(&Buffer::with(&file, capacity), length, &record);
                let right = match need <= capacity && need <= MAX_JOURNAL_BYTES {
                    true => ACCEPTED,
                    false if capacity < length => CORRUPT,
                    false => FULL,
                };
                assert_eq!(answer, right, "{size} bytes to {length} in {capacity}");
                tally.add(answer);
            }
        }
        let unfit = journals::unfit_record(&mut random);
        tally.add(agreed_append(&Buffer::with(&file, 66_000), length, &unfit));
    }
    // Files that are too long already, and such as are no journals.
    for length in [65_536, 65_537, 65_600] {
        let whole = journals::whole_of_size(&mut random, length);
        for (spoilt, answer) in [
            (&[][..], CORRUPT),
            (&[3], OTHER_VERSION),
            (&[3, 0], NOT_JOURNAL),
        ] {
            let mut file = whole.clone();
            for place in spoilt {
                file[*place] ^= 0x20;
            }
            let buffer = Buffer::with(&file, 66_000);
            assert_eq!(agreed_append(&buffer, length, &bare(b'U', 0)), answer);
            tally.add(answer);
        }
    }
    println!("appends near the longest: {tally}");
    assert!(tally.accepted > 1_000 && tally.full > 1_000 && tally.corrupt > 100);
}

#[test]
fn empty_files() {
    for capacity in 0..=20 {
        let mut buffer = Buffer::with(&[], capacity);
        let mut expected = buffer.clone();
        let answer = compare::journal::empty(buffer.lent());
        assert_eq!(answer, if capacity < 7 { FULL } else { ACCEPTED });
        assert_eq!(answer, number(&empty(expected.lent())));
        assert_eq!(buffer.bytes, expected.bytes, "in {capacity} bytes");
    }
}

/// The proved guard appends a file's records, in order, to the empty file.
fn rebuilt(file: &[u8], records: &[Record], spare: usize) {
    let mut buffer = Buffer::with(&[], file.len() + spare);
    let mut expected = buffer.clone();
    expected.bytes[..file.len()].copy_from_slice(file);
    assert_eq!(compare::journal::empty(buffer.lent()), ACCEPTED);
    let mut length = HEAD_BYTES;
    for record in records {
        let before = length;
        let answer = compare::journal::append(buffer.lent(), &mut length, record);
        assert_eq!(answer, ACCEPTED, "{record:?} at {before}");
        assert_eq!(length, before + record.size(), "{record:?} at {before}");
    }
    assert_eq!(length, file.len());
    assert!(buffer == expected, "{}", shown(file));
}

/// A readable file's records, appended in order, give the same file, and leave
/// the bytes after it.
#[test]
fn rebuilding() {
    let mut random = Random::new(53);
    let mut appended = 0;
    for _ in 0..50_000 {
        let file = journals::whole(&mut random);
        let (records, end) = agreed_walk(&file);
        assert_eq!(end, END);
        let spare = random.pick(&[0, 1, 8, 9, 200]);
        rebuilt(&file, &records, spare);
        appended += records.len();
    }
    for spare in [0, 40] {
        let file = journals::whole_of_size(&mut random, MAX_JOURNAL_BYTES);
        let (records, _) = agreed_walk(&file);
        rebuilt(&file, &records, spare);
        appended += records.len();
    }
    println!("rebuilding: 50002 files, {appended} records");
    assert!(appended > 200_000);
}

/// The proved guard alone against bytes by hand: it reads the file, and each
/// append leaves what is written here.
#[test]
fn files_by_hand() {
    assert_eq!(written::file(&[]), hex("4B 4C 44 02 00 00 00"));
    assert_eq!(written::file(&OFFICE).len(), 160);
    let letters = EVERY_LETTER.map(|(letter, ..)| letter);
    assert_eq!(letters, Letter::ALL.map(Letter::byte));
    for all in [&OFFICE[..], &EVERY_LETTER] {
        let file = written::file(all);
        let records: Vec<Record> = all.iter().map(written::record).collect();
        assert_eq!(agreed_open(&file), ACCEPTED);
        assert_eq!(agreed_walk(&file), (records.clone(), END));
        let mut buffer = Buffer::with(&[], 200);
        assert_eq!(compare::journal::empty(buffer.lent()), ACCEPTED);
        let mut length = 7;
        for (place, record) in records.iter().enumerate() {
            let answer = compare::journal::append(buffer.lent(), &mut length, record);
            let now = written::file(&all[..=place]);
            assert_eq!((answer, length), (ACCEPTED, now.len()));
            assert!(buffer == Buffer::with(&now, 200), "after record {place}");
        }
    }
}

/// The values of records, written out from the interface's description.
#[test]
fn values_are_as_described() {
    let file = hex("4B 4C 44 02 00 02 00 \
         4C 01 00 02 00 03 01 02 00 55 30 \
         52 05 00 00 00 00 00 00 00");
    let lock = [0x4C, 1, 2, 259, 16, 18];
    assert_eq!(agreed_next(&file, 7), (1, 18, lock));
    assert_eq!(agreed_next(&file, 18), (1, 27, [0x52, 5, 0, 0, 27, 27]));
    for end in [27, 28, 1_000_000, usize::MAX - 8, usize::MAX] {
        assert_eq!(agreed_next(&file, end), (0, end, UNTOUCHED));
        assert_eq!(agreed_next(&[], end), (0, end, UNTOUCHED));
    }
    for corrupt in [0, 8, 16, 19, 26] {
        assert_eq!(agreed_next(&file, corrupt), (18, corrupt, UNTOUCHED));
    }
    // The text cut short.
    assert_eq!(agreed_next(&file[..17], 7), (18, 7, UNTOUCHED));
    // A file's head isn't looked at, since opening has done so.
    assert_eq!(agreed_next(&file[18..], 0), (1, 9, [0x52, 5, 0, 0, 9, 9]));
}

/// Bytes that are no journal, read at any cursor: nothing is read beyond them,
/// and both sides find the same. Many are letters and zeros, so that records
/// stand among them.
#[test]
fn any_bytes_at_any_cursor() {
    let mut random = Random::new(55);
    let mut found = [0_u64; 3];
    for _ in 0..200_000 {
        let mut bytes = vec![0; random.below(120)];
        for byte in &mut bytes {
            *byte = match random.below(16) {
                0 => random.bits() as u8,
                1 | 2 => random.pick(&Letter::ALL).byte(),
                3 => random.below(97) as u8,
                _ => 0,
            };
        }
        for _ in 0..8 {
            let cursor = match random.below(8) {
                0 => random.bits() as usize,
                1 => usize::MAX - random.below(120),
                _ => random.below(bytes.len() + 10),
            };
            match agreed_next(&bytes, cursor).0 {
                END => found[0] += 1,
                RECORD => found[1] += 1,
                _ => found[2] += 1,
            }
        }
    }
    println!("any bytes: {found:?} ends, records and neither");
    assert!(found.iter().all(|times| *times > 20_000));
}

/// The proved guard's answer to a file by hand.
#[track_caller]
fn answers(file: &str, answer: u32) {
    let bytes = hex(file);
    assert_eq!(agreed_open(&bytes), answer, "{file}");
    agreed(&bytes, &mut Random::new(54));
}

#[test]
fn answers_by_hand() {
    answers("4B 4C 44 02 00 00 00", ACCEPTED);
    answers("", NOT_JOURNAL);
    answers("4B 4C", NOT_JOURNAL);
    answers("4B 4C 64 02 00 00 00", NOT_JOURNAL);
    answers("4B 4C 44", CORRUPT);
    answers("4B 4C 44 01 00 00", CORRUPT);
    answers("4B 4C 44 01 00 00 00", OTHER_VERSION);
    answers("4B 4C 44 02 01 00 00", OTHER_VERSION);
    answers("4B 4C 44 00 02 00 00 FF", OTHER_VERSION);
    answers("4B 4C 44 02 00 01 00", CORRUPT);
    answers("4B 4C 44 02 00 00 00 00", CORRUPT);
    answers("4B 4C 44 02 00 01 00 55 00 00 00 00 00 00 00 00", ACCEPTED);
    answers("4B 4C 44 02 00 01 00 55 00 00 00 00 00 00 00", CORRUPT);
    answers("4B 4C 44 02 00 01 00 55 01 00 00 00 00 00 00 00", CORRUPT);
    answers("4B 4C 44 02 00 01 00 53 01 00 00 01 00 00 00 00", CORRUPT);
    answers("4B 4C 44 02 00 01 00 43 01 00 01 00 00 01 00 00", CORRUPT);
    answers("4B 4C 44 02 00 01 00 75 00 00 00 00 00 00 00 00", CORRUPT);
    answers("4B 4C 44 02 00 01 00 4C 00 00 00 00 00 00 00 00", CORRUPT);
    // Wrong values, which are no fault of the file: N with b 2, A with c 1, and
    // L with a text that is no formula.
    answers(
        "4B 4C 44 02 00 03 00 4E 09 00 02 00 00 00 00 00 \
         41 00 00 00 00 01 00 00 00 4C 00 00 00 00 F0 FF 03 00 20 29 FF",
        ACCEPTED,
    );
}

/// The proved guard's answer to an append by hand, which must be a refusal.
#[track_caller]
fn append_answers(buffer: &str, length: usize, record: &Record, answer: u32) {
    let bytes = hex(buffer);
    let buffer = Buffer::with(&bytes, bytes.len());
    assert_eq!(agreed_append(&buffer, length, record), answer);
}

#[test]
fn refused_appends_by_hand() {
    let user = bare(b'U', 0);
    let unfit = bare(b'U', 1);
    let nothing = "4B 4C 44 02 00 00 00";
    // The length comes first, then the file, the record and the room.
    append_answers("00 00 00", 4, &unfit, CORRUPT);
    append_answers("00 00 00", usize::MAX, &user, CORRUPT);
    append_answers("", 1, &user, CORRUPT);
    append_answers("", 0, &unfit, NOT_JOURNAL);
    append_answers(nothing, 2, &user, NOT_JOURNAL);
    append_answers(nothing, 6, &user, CORRUPT);
    append_answers("4B 4C 44 01 00 00 00", 7, &unfit, OTHER_VERSION);
    append_answers(
        "4B 4C 44 01 00 00 00 00 00 00 00 00 00 00 00 00",
        7,
        &user,
        OTHER_VERSION,
    );
    append_answers("4B 4C 44 02 00 01 00", 7, &user, CORRUPT);
    append_answers(nothing, 7, &unfit, CORRUPT);
    append_answers(nothing, 7, &bare(b'L', 0), CORRUPT);
    append_answers(nothing, 7, &bare(b'L', MAX_TEXT_BYTES + 1), CORRUPT);
    append_answers(nothing, 7, &bare(b'L', 65_537), CORRUPT);
    append_answers(nothing, 7, &bare(b'X', 0), CORRUPT);
    append_answers(nothing, 7, &user, FULL);
    append_answers(
        "4B 4C 44 02 00 00 00 00 00 00 00 00 00 00 00",
        7,
        &user,
        FULL,
    );
}
