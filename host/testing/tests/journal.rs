//! The reference's journals against document 01: files whose bytes are written
//! out by hand, each limit from both sides, and the order of the refusals.

use reference::journal::{
    Record, Refusal, Step, append, check, empty, fits, read, record_at, write,
};
use reference::letter::Letter;
use reference::limits::{MAX_JOURNAL_BYTES, MAX_TEXT_BYTES};
use testing::calls::{call, shaped};
use testing::random::Random;
use testing::written::{self, EVERY_LETTER, OFFICE, hex};

fn record(letter: u8, a: u16, b: u16, c: u16, text: &[u8]) -> Record {
    Record {
        letter,
        a,
        b,
        c,
        text: text.to_vec(),
    }
}

const FULL: Refusal = Refusal::Full;
const NOT_JOURNAL: Refusal = Refusal::NotJournal;
const OTHER_VERSION: Refusal = Refusal::OtherVersion;
const CORRUPT: Refusal = Refusal::Corrupt;

const EMPTY: &str = "4B 4C 44 02 00 00 00";

#[track_caller]
fn readable(file: &[u8], records: &[Record]) {
    assert_eq!(check(file), Ok(()), "{file:?}");
    assert_eq!(read(file).as_deref(), Ok(records), "{file:?}");
    assert_eq!(write(records), file, "{file:?}");
}

#[track_caller]
fn refused(file: &str, refusal: Refusal) {
    refused_bytes(&hex(file), refusal);
}

#[track_caller]
fn refused_bytes(file: &[u8], refusal: Refusal) {
    assert_eq!(check(file), Err(refusal), "{}", file.escape_ascii());
    assert_eq!(read(file), Err(refusal), "{}", file.escape_ascii());
}

#[test]
fn worked_examples() {
    readable(&hex(EMPTY), &[]);
    let office = written::file(&OFFICE);
    assert_eq!(office.len(), 160);
    readable(&office, &OFFICE.each_ref().map(written::record));
}

#[test]
fn refusal_numbers() {
    assert_eq!(FULL.number(), 10);
    assert_eq!(NOT_JOURNAL.number(), 16);
    assert_eq!(OTHER_VERSION.number(), 17);
    assert_eq!(CORRUPT.number(), 18);
}

/// Every letter with all its fields, low byte first.
#[test]
fn every_letter_by_hand() {
    let letters = EVERY_LETTER.map(|(letter, ..)| letter);
    assert_eq!(letters, Letter::ALL.map(Letter::byte));
    let records = EVERY_LETTER.each_ref().map(written::record);
    readable(&written::file(&EVERY_LETTER), &records);
}

#[test]
fn a_wrong_field_value_or_formula_is_no_fault_of_the_file() {
    readable(
        &hex("4B 4C 44 02 00 03 00 \
             4E 09 00 02 00 00 00 00 00 \
             41 00 00 00 00 01 00 00 00 \
             4C 00 00 00 00 F0 FF 03 00 20 29 FF"),
        &[
            call(b'N', 9, 2, 0),
            call(b'A', 0, 0, 1),
            record(b'L', 0, 0, 65_520, b" )\xFF"),
        ],
    );
}

#[test]
fn mark_and_version() {
    refused("", NOT_JOURNAL);
    refused("4B", NOT_JOURNAL);
    refused("4B 4C", NOT_JOURNAL);
    refused("4B 4C 45", NOT_JOURNAL);
    refused("6B 6C 64 02 00 00 00", NOT_JOURNAL);
    refused("4C 4B 44 02 00 00 00", NOT_JOURNAL);
    refused("00 4B 4C 44 02 00 00 00", NOT_JOURNAL);
    refused("4B 4C 44", CORRUPT);
    refused("4B 4C 44 02", CORRUPT);
    refused("4B 4C 44 01 00", CORRUPT);
    refused("4B 4C 44 01 00 00", CORRUPT);
    refused("4B 4C 44 02 00 00", CORRUPT);
    for version in [
        "01 00", "00 00", "03 00", "06 00", "82 00", "00 01", "01 01", "02 01", "00 02", "02 80",
        "FF FF",
    ] {
        refused(&format!("4B 4C 44 {version} 00 00"), OTHER_VERSION);
    }
    // Other version, and more: it comes before every fault of the records, and a
    // file that was readable in version 1 isn't.
    refused("4B 4C 44 01 00 01 00", OTHER_VERSION);
    refused("4B 4C 44 03 00 00 00 FF", OTHER_VERSION);
    refused(
        "4B 4C 44 01 00 01 00 55 00 00 00 00 00 00 00 00",
        OTHER_VERSION,
    );
    // Wrong mark, and more.
    refused("4B 4C 00 01 00 FF FF FF", NOT_JOURNAL);
}

#[test]
fn counts_and_ends() {
    // One record too few, and one too many.
    refused("4B 4C 44 02 00 01 00", CORRUPT);
    refused("4B 4C 44 02 00 00 00 55 00 00 00 00 00 00 00 00", CORRUPT);
    refused("4B 4C 44 02 00 02 00 55 00 00 00 00 00 00 00 00", CORRUPT);
    refused("4B 4C 44 02 00 01 01 55 00 00 00 00 00 00 00 00", CORRUPT);
    refused("4B 4C 44 02 00 00 01", CORRUPT);
    refused("4B 4C 44 02 00 00 80", CORRUPT);
    refused("4B 4C 44 02 00 00 00 55", CORRUPT);
    // Cut short in a record's head and in its text.
    refused("4B 4C 44 02 00 01 00 55 00 00 00 00 00 00 00", CORRUPT);
    refused(
        "4B 4C 44 02 00 01 00 4C 00 00 00 00 01 00 02 00 55",
        CORRUPT,
    );
    refused(
        "4B 4C 44 02 00 01 00 4C 00 00 00 00 01 00 02 00 55 30 00",
        CORRUPT,
    );
}

#[test]
fn texts() {
    let lock = |length: usize| record(b'L', 1, 2, 3, &vec![b'!'; length]);
    for (length, right) in [
        (0, false),
        (1, true),
        (MAX_TEXT_BYTES, true),
        (MAX_TEXT_BYTES + 1, false),
        (256, false),
    ] {
        assert_eq!(fits(&lock(length)), right, "{length}");
        let file = write(&[lock(length)]);
        assert_eq!(file.len(), 16 + length);
        assert_eq!(check(&file).is_ok(), right, "{length}");
    }
    assert!(!fits(&lock(65_537)));
    let without_text = Letter::ALL.into_iter().filter(|letter| !letter.has_text());
    for letter in without_text {
        assert!(fits(&call(letter, 0, 0, 0)));
        for length in [1, MAX_TEXT_BYTES, MAX_TEXT_BYTES + 1] {
            let record = record(letter.byte(), 0, 0, 0, &vec![b'0'; length]);
            assert!(!fits(&record), "{letter:?} {length}");
            refused_bytes(&write(&[record]), CORRUPT);
        }
    }
}

#[test]
fn letters_and_named_fields() {
    // The fields that hold something are those that document 01's table names.
    for letter in 0..=255 {
        let written = EVERY_LETTER.iter().find(|written| written.0 == letter);
        let named = written.map(|(_, fields, ..)| fields.map(|field| field != 0));
        let text = written.map_or("", |(_, _, text, _)| text).as_bytes();
        assert_eq!(fits(&record(letter, 0, 0, 0, text)), named.is_some());
        for (field, value) in [(0, 1), (1, 1), (2, 1), (0, 256), (1, 256), (2, 256)] {
            let mut fields = [0; 3];
            fields[field] = value;
            let [a, b, c] = fields;
            let record = record(letter, a, b, c, text);
            let right = named.is_some_and(|named| named[field]);
            assert_eq!(fits(&record), right, "{record:?}");
            assert_eq!(check(&write(&[record])).is_ok(), right);
        }
    }
}

/// 7,279 records of 9 bytes, and one with a text that makes the file this
/// long.
fn file_of(length: usize) -> Vec<u8> {
    let mut records = vec![call(b'U', 0, 0, 0); 7_279];
    records.push(record(b'L', 0, 0, 0, &vec![b'!'; length - 65_527]));
    let file = write(&records);
    assert_eq!(file.len(), length);
    file
}

#[test]
fn length_limit() {
    assert_eq!(check(&file_of(MAX_JOURNAL_BYTES)), Ok(()));
    assert_eq!(
        read(&file_of(MAX_JOURNAL_BYTES)).map(|r| r.len()),
        Ok(7_280)
    );
    refused_bytes(&file_of(MAX_JOURNAL_BYTES + 1), CORRUPT);
    // The version comes before the length, the mark before both.
    let mut other = file_of(MAX_JOURNAL_BYTES + 1);
    other[3] = 1;
    refused_bytes(&other, OTHER_VERSION);
    other[2] = b'd';
    refused_bytes(&other, NOT_JOURNAL);
    refused_bytes(&[0; 70_000], NOT_JOURNAL);
}

#[test]
fn steps() {
    let file = hex("4B 4C 44 02 00 02 00 \
         4C 01 00 02 00 03 00 02 00 55 30 \
         52 05 00 00 00 00 00 00 00");
    let lock = Step::Record {
        letter: b'L',
        a: 1,
        b: 2,
        c: 3,
        text: 16..18,
    };
    let back = Step::Record {
        letter: b'R',
        a: 5,
        b: 0,
        c: 0,
        text: 27..27,
    };
    assert_eq!(record_at(&file, 7), lock);
    assert_eq!(record_at(&file, 18), back);
    for end in [27, 28, usize::MAX] {
        assert_eq!(record_at(&file, end), Step::End);
        assert_eq!(record_at(&[], end), Step::End);
    }
    assert_eq!(record_at(&[], 0), Step::End);
    // The mark's K starts no whole record, and the last eight bytes are none.
    assert_eq!(record_at(&file, 0), Step::Corrupt);
    assert_eq!(record_at(&file, 19), Step::Corrupt);
    assert_eq!(record_at(&file, 26), Step::Corrupt);
    // Text cut short, then whole.
    assert_eq!(record_at(&file[..17], 7), Step::Corrupt);
    assert_eq!(record_at(&file[..18], 7), lock);
    // The head isn't looked at.
    let alone = Step::Record {
        letter: b'R',
        a: 5,
        b: 0,
        c: 0,
        text: 9..9,
    };
    assert_eq!(record_at(&file[18..], 0), alone);
}

#[test]
fn empty_files() {
    for capacity in 0..=20 {
        let mut buffer = vec![0xA5; capacity];
        let answer = empty(&mut buffer);
        if capacity < 7 {
            assert_eq!(answer, Err(FULL));
            assert_eq!(buffer, vec![0xA5; capacity]);
        } else {
            assert_eq!(answer, Ok(7));
            assert_eq!(buffer[..7], hex(EMPTY));
            assert_eq!(buffer[7..], vec![0xA5; capacity - 7]);
        }
    }
}

/// The buffer after an append that must be accepted, and its answer.
#[track_caller]
fn appended(buffer: &str, length: usize, record: &Record, after: &str, new_length: usize) {
    let mut buffer = hex(buffer);
    assert_eq!(append(&mut buffer, length, record), Ok(new_length));
    assert_eq!(buffer, hex(after));
}

/// An append that must be refused, and leave every byte.
#[track_caller]
fn not_appended(buffer: &str, length: usize, record: &Record, refusal: Refusal) {
    let mut bytes = hex(buffer);
    assert_eq!(append(&mut bytes, length, record), Err(refusal));
    assert_eq!(bytes, hex(buffer));
}

#[test]
fn appends() {
    let user = call(b'U', 0, 0, 0);
    let lock = record(b'L', 1, 258, 3, b"U0");
    let one_more = "4B 4C 44 02 00 00 00 EE EE EE EE EE EE EE EE EE EE";
    let exact = "4B 4C 44 02 00 00 00 EE EE EE EE EE EE EE EE EE";
    let one_less = "4B 4C 44 02 00 00 00 EE EE EE EE EE EE EE EE";
    appended(
        one_more,
        7,
        &user,
        "4B 4C 44 02 00 01 00 55 00 00 00 00 00 00 00 00 EE",
        16,
    );
    appended(
        exact,
        7,
        &user,
        "4B 4C 44 02 00 01 00 55 00 00 00 00 00 00 00 00",
        16,
    );
    not_appended(one_less, 7, &user, FULL);
    not_appended(exact, 7, &lock, FULL);
    appended(
        "4B 4C 44 02 00 01 00 55 00 00 00 00 00 00 00 00 \
         EE EE EE EE EE EE EE EE EE EE EE EE",
        16,
        &lock,
        "4B 4C 44 02 00 02 00 55 00 00 00 00 00 00 00 00 \
         4C 01 00 02 01 03 00 02 00 55 30 EE",
        27,
    );
}

#[test]
fn refused_appends_in_order() {
    let user = call(b'U', 0, 0, 0);
    let unfit = call(b'U', 0, 0, 1);
    // The length first, whatever the bytes are.
    not_appended("00 00 00", 4, &unfit, CORRUPT);
    not_appended("00 00 00", usize::MAX, &user, CORRUPT);
    not_appended("", 1, &user, CORRUPT);
    // Then the file.
    not_appended("", 0, &user, NOT_JOURNAL);
    not_appended("00 00 00", 3, &unfit, NOT_JOURNAL);
    not_appended(EMPTY, 2, &user, NOT_JOURNAL);
    not_appended(EMPTY, 6, &user, CORRUPT);
    not_appended("4B 4C 44 01 00 00 00", 7, &unfit, OTHER_VERSION);
    not_appended("4B 4C 44 02 00 01 00", 7, &user, CORRUPT);
    // Then the record, before the room.
    not_appended(EMPTY, 7, &unfit, CORRUPT);
    not_appended(EMPTY, 7, &call(b'X', 0, 0, 0), CORRUPT);
    not_appended(EMPTY, 7, &record(b'L', 0, 0, 0, b""), CORRUPT);
    not_appended(
        EMPTY,
        7,
        &record(b'L', 0, 0, 0, &[b'!'; MAX_TEXT_BYTES + 1]),
        CORRUPT,
    );
    not_appended(EMPTY, 7, &record(b'L', 0, 0, 0, &[b'!'; 65_537]), CORRUPT);
    not_appended(EMPTY, 7, &record(b'K', 0, 0, 0, b"0"), CORRUPT);
    not_appended(EMPTY, 7, &user, FULL);
}

#[test]
fn appending_up_to_the_limit() {
    let nearly = write(&vec![call(b'U', 0, 0, 0); 7_279]);
    assert_eq!(nearly.len(), 65_518);
    let mut buffer = nearly.clone();
    buffer.resize(70_000, 0xEE);
    let before = buffer.clone();
    // A text of 8 bytes reaches 65,535; one of 9 passes it.
    let lock = |length: usize| record(b'L', 0, 0, 0, &vec![b'!'; length]);
    assert_eq!(append(&mut buffer, 65_518, &lock(9)), Err(FULL));
    assert_eq!(buffer, before);
    assert_eq!(append(&mut buffer, 65_518, &lock(8)), Ok(65_535));
    assert_eq!(buffer[..65_535], file_of(65_535));
    assert_eq!(buffer[65_535..], before[65_535..]);
    let before = buffer.clone();
    assert_eq!(append(&mut buffer, 65_535, &lock(1)), Err(FULL));
    assert_eq!(append(&mut buffer, 65_536, &lock(1)), Err(CORRUPT));
    assert_eq!(buffer, before);
}

/// A record of a letter that fits.
fn random_record(random: &mut Random) -> Record {
    let letter = random.pick(&Letter::ALL);
    let length = match letter.has_text() {
        true => random.between(1, MAX_TEXT_BYTES),
        false => 0,
    };
    let text = (0..length).map(|_| random.bits() as u8).collect();
    shaped(letter, text, || random.bits() as u16)
}

/// Appending and reading undo each other.
#[test]
fn appended_records_read_back() {
    let mut random = Random::new(21);
    for _ in 0..2_000 {
        let records: Vec<Record> = (0..random.below(40))
            .map(|_| random_record(&mut random))
            .collect();
        let mut buffer = vec![0xEE; 7 + 40 * (9 + MAX_TEXT_BYTES)];
        let mut length = empty(&mut buffer).expect("the buffer is long enough");
        for record in &records {
            let new_length = append(&mut buffer, length, record);
            assert_eq!(new_length, Ok(length + 9 + record.text.len()));
            length += record.size();
        }
        assert_eq!(read(&buffer[..length]).as_deref(), Ok(&records[..]));
        assert_eq!(write(&records), buffer[..length]);
        assert!(buffer[length..].iter().all(|byte| *byte == 0xEE));
    }
}
