//! Records and journals from a repeatable source of numbers: right ones, and
//! ones with something wrong in a place that matters.

use crate::calls::shaped;
use crate::random::Random;
use reference::journal::{HEAD_BYTES, RECORD_HEAD_BYTES, Record, write};
use reference::letter::Letter;
use reference::limits::MAX_TEXT_BYTES;

/// The bytes of a text that is just too long.
const TOO_LONG: usize = MAX_TEXT_BYTES + 1;

/// Where the low byte of a file's version stands.
const VERSION: usize = 3;

/// Whether a letter's call names a field: 0 for a, 1 for b, 2 for c.
pub fn names(letter: Letter, field: usize) -> bool {
    field < letter.fields().len()
}

/// The record's field: 0 for a, 1 for b, 2 for c.
pub fn field_mut(record: &mut Record, field: usize) -> &mut u16 {
    match field {
        0 => &mut record.a,
        1 => &mut record.b,
        _ => &mut record.c,
    }
}

fn value(random: &mut Random) -> u16 {
    match random.below(4) {
        0 => random.bits() as u16,
        1 => random.pick(&[0, 255, 256, 257, 32_768, 65_280, 65_535]),
        _ => random.below(9) as u16,
    }
}

fn text(random: &mut Random, length: usize) -> Vec<u8> {
    // Texts of arbitrary bytes, of a formula's bytes, and of bytes that could
    // start a record.
    let bytes: &[u8] = match random.below(3) {
        0 => return (0..length).map(|_| random.bits() as u8).collect(),
        1 => b"URSD0123456789&|!()",
        _ => &[&Letter::ALL.map(Letter::byte)[..], &[0; 6]].concat(),
    };
    (0..length).map(|_| random.pick(bytes)).collect()
}

/// One of the letters that suit.
fn letter(random: &mut Random, suits: impl Fn(&Letter) -> bool) -> Letter {
    let letters: Vec<Letter> = Letter::ALL.into_iter().filter(suits).collect();
    random.pick(&letters)
}

fn letter_with_text(random: &mut Random) -> Letter {
    letter(random, |letter| letter.has_text())
}

fn letter_without_text(random: &mut Random) -> Letter {
    letter(random, |letter| !letter.has_text())
}

/// A record of a letter that fits, but for the text's length.
fn record_of(random: &mut Random, letter: Letter, text_length: usize) -> Record {
    let text = text(random, text_length);
    shaped(letter, text, || value(random))
}

/// A record that fits, with at most this long a text.
pub fn record(random: &mut Random, most: usize) -> Record {
    let letter = random.pick(&Letter::ALL);
    let length = match (letter.has_text(), random.below(4)) {
        (true, 0) => 1,
        (true, 1) => most,
        (true, _) => random.between(1, most),
        (false, _) => 0,
    };
    record_of(random, letter, length)
}

/// A record of this many bytes that fits.
pub fn record_of_size(random: &mut Random, size: usize) -> Record {
    let text_length = size - RECORD_HEAD_BYTES;
    assert!(text_length <= MAX_TEXT_BYTES);
    let letter = match text_length {
        0 => letter_without_text(random),
        _ => letter_with_text(random),
    };
    record_of(random, letter, text_length)
}

/// A record with a single thing wrong with it.
pub fn unfit_record(random: &mut Random) -> Record {
    let mut record = record(random, MAX_TEXT_BYTES);
    match random.below(4) {
        0 => record.letter = unknown_letter(random),
        1 => {
            let letter = letter(random, |letter| !names(*letter, 2));
            record = record_of(random, letter, 0);
            let unnamed: Vec<usize> = (0..3).filter(|field| !names(letter, *field)).collect();
            let wrong = random.pick(&[1, 2, 255, 256, 32_768, 65_535]);
            *field_mut(&mut record, random.pick(&unnamed)) = wrong;
        }
        2 => {
            // 257 and 300 would fit if only 8 bits of the length counted, 65,537
            // if only 16.
            let length = random.pick(&[0, 0, TOO_LONG, TOO_LONG, 98, 255, 257, 300, 65_537]);
            let letter = letter_with_text(random);
            record = record_of(random, letter, length);
        }
        _ => {
            let letter = letter_without_text(random);
            let length = random.pick(&[1, 1, 2, 9, MAX_TEXT_BYTES, TOO_LONG, 256, 65_536]);
            record = record_of(random, letter, length);
        }
    }
    record
}

/// A byte that is no call's letter, often one that looks like one.
fn unknown_letter(random: &mut Random) -> u8 {
    loop {
        let letter = match random.below(3) {
            0 => random.bits() as u8,
            1 => random.pick(&Letter::ALL).byte() ^ (1 << random.below(8)),
            _ => random.pick(b"BFHIJMOPQVWXYZ\0 l"),
        };
        if Letter::of(letter).is_none() {
            return letter;
        }
    }
}

fn records(random: &mut Random, count: usize, most: usize) -> Vec<Record> {
    (0..count).map(|_| record(random, most)).collect()
}

/// A readable file of 0 to 4 records, 83 bytes at most.
pub fn small(random: &mut Random) -> Vec<u8> {
    let count = random.below(5);
    write(&records(random, count, 10))
}

/// A readable file, now and then one with some hundred records.
pub fn whole(random: &mut Random) -> Vec<u8> {
    let count = match random.below(64) {
        0 => random.between(20, 400),
        1..16 => random.between(6, 20),
        _ => random.below(6),
    };
    write(&records(random, count, MAX_TEXT_BYTES))
}

/// A file of exactly this many bytes, readable if that isn't too many.
pub fn whole_of_size(random: &mut Random, size: usize) -> Vec<u8> {
    const LEAST: usize = RECORD_HEAD_BYTES;
    const MOST: usize = RECORD_HEAD_BYTES + MAX_TEXT_BYTES;
    let mut rest = size - HEAD_BYTES;
    let mut records = Vec::new();
    while rest > 0 {
        // What is left after it is 0 or at least the least size.
        let record = if rest > 2 * MOST {
            record(random, MAX_TEXT_BYTES)
        } else if rest > MOST {
            let low = LEAST.max(rest - MOST);
            let size = random.between(low, MOST.min(rest - LEAST));
            record_of_size(random, size)
        } else {
            record_of_size(random, rest)
        };
        rest -= record.size();
        records.push(record);
    }
    let file = write(&records);
    assert_eq!(file.len(), size);
    file
}

/// A readable file with one or a few things done to it, nearly all of which
/// make it unreadable.
pub fn damaged(random: &mut Random) -> Vec<u8> {
    let mut file = match random.below(3) {
        0 => whole(random),
        _ => small(random),
    };
    for _ in 0..random.between(1, 3) {
        let place = random.below(file.len() + 1);
        let inside = place.min(file.len() - 1);
        match random.below(9) {
            0 => file[inside] = random.bits() as u8,
            1 => file[inside] ^= 1 << random.below(8),
            2 => file.insert(place, random.bits() as u8),
            3 => {
                file.remove(inside);
            }
            4 => file.truncate(place.max(1)),
            5 => file.extend(trailing_bytes(random)),
            6 => {
                // The version, mostly the one before.
                if let Some(version) = file.get_mut(VERSION) {
                    *version = random.pick(&[1, 1, 1, 0, 3]);
                }
            }
            7 => {
                // A run of bytes twice, which may be whole records.
                let length = random.between(1, 9.min(file.len() - inside));
                let run = file[inside..inside + length].to_vec();
                file.splice(place..place, run);
            }
            _ => {
                let other = random.below(file.len());
                file.swap(inside, other);
            }
        }
        if file.is_empty() {
            break;
        }
    }
    file
}

/// The bytes of a record or of a few zeros, to stand after a file.
fn trailing_bytes(random: &mut Random) -> Vec<u8> {
    if random.one_in(3) {
        return vec![0; random.between(1, 10)];
    }
    let one = write(&[record(random, 10)]);
    one[HEAD_BYTES..].to_vec()
}
