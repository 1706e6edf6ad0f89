//! Calls by their fields' names, against document 01's table of calls.

use reference::call::Call;
use reference::journal::Record;
use reference::letter::Letter;
use reference::limits::MAX_TEXT_BYTES;
use testing::calls::{bare, call, lock};
use testing::written::{self, EVERY_LETTER};

/// The records of [`EVERY_LETTER`] as calls.
const CALLS: [Call; Letter::ALL.len()] = [
    Call::NewUser,
    Call::StartThread { user: 258 },
    Call::EndThread { thread: 772 },
    Call::NewSegment {
        thread: 1_286,
        kind: 1_800,
    },
    Call::NewKey { thread: 65_535 },
    Call::GiveKey {
        thread: 513,
        segment: 1_027,
        key: 1_541,
    },
    Call::TakeKey {
        thread: 256,
        segment: 512,
        key: 768,
    },
    Call::AddLock {
        thread: 255,
        segment: 254,
        operations: 253,
        text: b"!",
    },
    Call::DropLock {
        thread: 32_768,
        lock: 32_767,
    },
    Call::CallSegment {
        thread: 8_208,
        segment: 16_432,
    },
    Call::ReturnCall { thread: 1 },
    Call::Access {
        thread: 1,
        segment: 2,
        operation: 3,
    },
];

#[test]
fn a_record_and_its_call() {
    for (call, written) in CALLS.into_iter().zip(&EVERY_LETTER) {
        let record = written::record(written);
        assert_eq!(Call::of(&record), Some(call));
        assert_eq!(Record::from(call), record);
        assert_eq!(call.letter().byte(), record.letter);
    }
}

#[test]
fn an_unknown_letter_is_no_call() {
    let known: Vec<u8> = (0..=255)
        .filter(|letter| Call::of(&call(*letter, 0, 0, 0)).is_some())
        .collect();
    assert_eq!(known, b"ACDEGKLNRSTU");
}

/// The letters with a, with b and with c among their fields, by document 01.
#[test]
fn an_unnamed_field_that_is_not_0_is_no_call() {
    for (fields, letters) in [
        ([1, 0, 0], "SENKGTLDCRA"),
        ([0, 256, 0], "NGTLDCA"),
        ([0, 0, 65_535], "GTLA"),
    ] {
        for letter in Letter::ALL {
            let [a, b, c] = fields;
            let named = letters.contains(letter.char());
            let record = call(letter, a, b, c);
            assert_eq!(Call::of(&record).is_some(), named, "{record:?}");
        }
    }
}

/// The formula is judged later, by 11.
#[test]
fn only_l_has_a_text_of_whatever_length() {
    for letter in Letter::ALL {
        for length in [1, MAX_TEXT_BYTES, MAX_TEXT_BYTES + 1, 65_536] {
            let is_call = Call::of(&bare(letter, length)).is_some();
            assert_eq!(is_call, letter.char() == 'L', "{letter:?} {length}");
        }
    }
    assert!(Call::of(&lock(0, 0, 1, b"")).is_some());
}
