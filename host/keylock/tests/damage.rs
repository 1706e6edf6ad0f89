//! Broken files: each with the place and the sentence that it must give.

use keylock::damage::{self, Damage};
use keylock::text;
use rotundaaloe::Journal;

const U: &[u8] = b"U\0\0\0\0\0\0\0\0";

fn damage(file: &[u8]) -> Damage {
    let refusal = Journal::from_bytes(file).expect_err("the check refuses it");
    damage::explain(file, refusal)
}

/// A file with this count and these records.
fn file(count: u16, records: &[&[u8]]) -> Vec<u8> {
    [b"KLD\x02\0", &count.to_le_bytes()[..], &records.concat()].concat()
}

#[track_caller]
fn broken(file: &[u8], byte: usize, record: Option<usize>, sentence: &str) {
    let damage = damage(file);
    assert_eq!(damage.refusal.number(), 18);
    assert_eq!(
        (damage.byte, damage.record, damage.sentence.as_str()),
        (byte, record, sentence)
    );
}

#[test]
fn no_mark() {
    for (file, byte) in [
        (&b""[..], 0),
        (b"KL", 2),
        (b"KLX\x02\0\0\0", 2),
        (b"kld\x02\0\0\0", 0),
        (b"U\nN 0 0\n", 0),
    ] {
        let damage = damage(file);
        assert_eq!(damage.refusal.number(), 16);
        assert_eq!((damage.byte, damage.record), (byte, None));
        assert_eq!(damage.sentence, "no mark: a journal begins with KLD");
    }
}

/// Whatever follows the head.
#[test]
fn other_version() {
    let changed = "a journal of version 1, whose edits (N, K, G, T, L, D) name a user; \
                   in version 2 they name a thread. The keylock that it was kept with reads it";
    for (file, sentence) in [
        (&b"KLD\x01\0\0\0"[..], changed),
        (b"KLD\x01\0\x01\0U\0\0\0\0\0\0\0\0", changed),
        (b"KLD\x01\0\x09\0Z", changed),
        (b"KLD\0\0\0\0", "version 0, only version 2 is known"),
        (b"KLD\x03\0\0\0", "version 3, only version 2 is known"),
        (b"KLD\x02\x01\0\0", "version 258, only version 2 is known"),
    ] {
        let damage = damage(file);
        assert_eq!(damage.refusal.number(), 17);
        assert_eq!((damage.byte, damage.record), (3, None));
        assert_eq!(damage.sentence, sentence);
    }
}

#[test]
fn the_head() {
    broken(b"KLD", 3, None, "cut short: 3 of the head's 7 bytes");
    broken(
        b"KLD\x01\0\0",
        6,
        None,
        "cut short: 6 of the head's 7 bytes",
    );
}

#[test]
fn too_long() {
    let records = [U].repeat(7_281);
    let long = file(7_281, &records);
    broken(&long, 65_535, None, "65,536 bytes, over 65,535");
}

#[test]
fn letters() {
    let unknown = |letter: u8| [&[letter], &U[1..]].concat();
    broken(
        &file(1, &[&unknown(b'Z')]),
        7,
        Some(0),
        "'Z' is no call's letter",
    );
    broken(
        &file(2, &[U, &unknown(b'u')]),
        16,
        Some(1),
        "'u' is no call's letter",
    );
    broken(
        &file(1, &[&unknown(0)]),
        7,
        Some(0),
        "byte 0x00 is no call's letter",
    );
    broken(&file(1, &[b"?"]), 7, Some(0), "'?' is no call's letter");
}

#[test]
fn fields() {
    let user = b"U\0\0\x05\0\0\0\0\0";
    broken(
        &file(1, &[user]),
        10,
        Some(0),
        "field b is 5, but U has none",
    );
    let user = b"U\x01\0\x05\0\0\0\0\0";
    broken(
        &file(1, &[user]),
        8,
        Some(0),
        "field a is 1, but U has none",
    );
    let call = b"C\x01\0\x02\0\0\x01\0\0";
    broken(
        &file(2, &[U, call]),
        21,
        Some(1),
        "field c is 256, but C has none",
    );
}

#[test]
fn text_lengths() {
    let sentence = "the text's length is 0, but L's is 1 to 96";
    broken(&file(1, &[b"L\0\0\0\0\x01\0\0\0"]), 14, Some(0), sentence);
    let sentence = "the text's length is 97, but L's is 1 to 96";
    let lock = [&b"L\0\0\0\0\x01\0\x61\0"[..], &[b'x'; 97]].concat();
    broken(&file(1, &[&lock]), 14, Some(0), sentence);
    let sentence = "the text's length is 3, but U has no text";
    broken(
        &file(1, &[b"U\0\0\0\0\0\0\x03\0abc"]),
        14,
        Some(0),
        sentence,
    );
}

#[test]
fn cut_short() {
    let sentence = "cut short: 3 of 9 bytes before the text";
    broken(&file(2, &[U, b"S\0\0"]), 19, Some(1), sentence);
    let sentence = "cut short: 2 of the text's 5 bytes";
    broken(
        &file(1, &[b"L\0\0\0\0\x01\0\x05\0S0"]),
        18,
        Some(0),
        sentence,
    );
}

#[test]
fn left_over_and_counts() {
    let sentence = "3 bytes left over after record 0, the last";
    broken(&file(1, &[U, b"xyz"]), 16, None, sentence);
    let sentence = "1 byte left over after the head, the count says 0 records";
    broken(&file(0, &[b"U"]), 7, None, sentence);
    let sentence = "the count says 1 record, but 3 stand in the file";
    broken(&file(1, &[U, U, U]), 16, None, sentence);
    let sentence = "the file ends after 1 record, its count says 3 records";
    broken(&file(3, &[U]), 16, None, sentence);
}

#[test]
fn shown_with_its_place() {
    let user = b"U\0\0\x05\0\0\0\0\0";
    let shown = damage(&file(1, &[user])).to_string();
    let right = "byte 10, record 0: field b is 5, but U has none (18 broken file)";
    assert_eq!(shown, right);
    let shown = damage(b"KLX").to_string();
    let right = "byte 2: no mark: a journal begins with KLD (16 not a desk file)";
    assert_eq!(shown, right);
}

/// A file, and where its records start.
fn example() -> (Vec<u8>, Vec<usize>) {
    let text = b"U\nS 0\nN 0 1\nL 0 0 4 S0&S1\nL 0 0 2 U0\nA 0 0 4\n";
    let journal = text::parse(text).expect("no mistake").journal;
    let starts = vec![7, 16, 25, 34, 48, 59];
    (journal.as_bytes().to_vec(), starts)
}

#[test]
fn every_cut_is_found() {
    let (file, starts) = example();
    for length in 7..file.len() {
        let damage = damage(&file[..length]);
        assert_eq!(damage.byte, length);
        let begun = starts.iter().filter(|start| **start < length).count();
        let record = match starts.contains(&length) {
            true => None,
            false => Some(begun - 1),
        };
        assert_eq!(damage.record, record, "cut at {length}");
    }
}

#[test]
fn every_wrong_letter_is_found() {
    let (file, starts) = example();
    for (record, start) in starts.into_iter().enumerate() {
        let mut file = file.clone();
        file[start] = b'Z';
        broken(&file, start, Some(record), "'Z' is no call's letter");
    }
}

#[test]
fn every_changed_byte_has_a_place_in_the_file() {
    let (file, _) = example();
    for place in 0..file.len() {
        for value in 0..=255 {
            let mut file = file.clone();
            file[place] = value;
            if let Err(refusal) = Journal::from_bytes(&file) {
                let damage = damage::explain(&file, refusal);
                assert!(damage.byte <= file.len());
            }
        }
    }
}
