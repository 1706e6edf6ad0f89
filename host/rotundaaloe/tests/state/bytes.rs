//! The bytes of a state file.

use crate::files::Directory;
use rotundaaloe::raw::Cells;
use rotundaaloe::refusal::Load;
use rotundaaloe::state::{FILE_BYTES, LoadError};
use rotundaaloe::{Access, Defined, Guard, Journal, Kind, Operations, Segment, Thread, User};
use std::fs;

/// Where the parts of a file start: mark, layout, length, cells, checksum.
const LAYOUT: usize = 4;
const LENGTH: usize = 6;
const CELLS: usize = 10;
const CHECKSUM: usize = 37_930;

/// The CRC-32 bit by bit, as the standards define it.
fn crc32(bytes: &[u8]) -> u32 {
    let mut remainder = u32::MAX;
    for byte in bytes {
        for bit in 0..8 {
            let carry = (remainder ^ u32::from(byte >> bit)) & 1 == 1;
            remainder >>= 1;
            if carry {
                remainder ^= 0xEDB8_8320;
            }
        }
    }
    remainder ^ u32::MAX
}

/// With the checksum that these bytes have.
fn summed(mut bytes: Vec<u8>) -> Vec<u8> {
    bytes.truncate(bytes.len() - 4);
    let sum = crc32(&bytes);
    bytes.extend(sum.to_le_bytes());
    bytes
}

/// Cells with any numbers in them, the same for the same seed.
fn drawn(mut seed: u64) -> Guard {
    let mut draw = || {
        // Knuth's linear congruential generator.
        seed = seed
            .wrapping_mul(6_364_136_223_846_793_005)
            .wrapping_add(1_442_695_040_888_963_407);
        (seed >> 32) as u32
    };
    let mut cells = Box::new(Cells::EMPTY);
    cells.registry.fill_with(&mut draw);
    cells
        .locks
        .as_flattened_mut()
        .as_flattened_mut()
        .fill_with(&mut draw);
    let mut small = || draw() as u16;
    cells.makers.fill_with(&mut small);
    cells
        .segments
        .as_flattened_mut()
        .as_flattened_mut()
        .fill_with(&mut small);
    cells
        .threads
        .as_flattened_mut()
        .as_flattened_mut()
        .fill_with(&mut small);
    Guard::from_cells(cells)
}

/// With as much of everything as there can be.
fn full() -> Guard {
    let mut guard = Guard::new();
    while guard.new_user().is_ok() {}
    while guard.start_thread(User(0)).is_ok() {}
    let editor = Thread(63);
    while guard.new_key(editor).is_ok() {}
    while let Ok(segment) = guard.new_segment(editor, Kind::Code) {
        for key in 0..7 {
            guard.give_key(editor, segment, Defined(key)).unwrap();
        }
        let text = "U0|U1|U2|U3|U4|U5|U6|R63&!D1023";
        guard
            .add_lock(editor, segment, Operations::EXECUTE, text)
            .unwrap();
    }
    for thread in guard.threads() {
        while guard.call_segment(thread.number, Segment(63)).is_ok() {}
    }
    guard
}

#[test]
fn the_bytes_of_the_empty_state() {
    let bytes = Guard::new().to_bytes();
    assert_eq!(bytes.len(), 37_934);
    assert_eq!(FILE_BYTES, 37_934);
    assert_eq!(
        bytes[..CELLS],
        [0x4B, 0x4C, 0x53, 0x0A, 1, 0, 0x20, 0x94, 0, 0]
    );
    assert!(bytes[CELLS..CHECKSUM].iter().all(|byte| *byte == 0));
    // Worked out by another program.
    assert_eq!(bytes[CHECKSUM..], EMPTY_CHECKSUM.to_le_bytes());
}

const EMPTY_CHECKSUM: u32 = 0x4161_DC33;

/// The five arrays in order, each number with its low byte first.
#[test]
fn the_bytes_of_the_cells() {
    let mut cells = Box::new(Cells::EMPTY);
    cells.registry[1] = 0x0403_0201;
    cells.makers[1_023] = 0x0605;
    cells.segments[63][1][7] = 0x0807;
    cells.locks[63][7][7] = 0x0C0B_0A09;
    cells.threads[63][16][7] = 0x0E0D;
    let bytes = Guard::from_cells(cells).to_bytes();
    let at = |start: usize, count: usize| &bytes[start..start + count];
    // 8 numbers of 4 bytes, then 1,024 of 2, 64 * 16 of 2, 64 * 64 of 4 and
    // 64 * 136 of 2.
    assert_eq!(at(10 + 4, 4), [1, 2, 3, 4]);
    assert_eq!(at(10 + 32 + 2_048 - 2, 2), [5, 6]);
    assert_eq!(at(10 + 32 + 2_048 + 2_048 - 2, 2), [7, 8]);
    assert_eq!(at(10 + 32 + 4_096 + 16_384 - 4, 4), [9, 10, 11, 12]);
    assert_eq!(at(10 + 32 + 20_480 + 17_408 - 2, 2), [13, 14]);
    let others = bytes[CELLS..CHECKSUM].iter().filter(|byte| **byte != 0);
    assert_eq!(others.count(), 14);
    assert_eq!(crc32(b"123456789"), 0xCBF4_3926);
    assert_eq!(at(CHECKSUM, 4), crc32(&bytes[..CHECKSUM]).to_le_bytes());
}

#[test]
fn what_is_saved_comes_back() {
    for guard in [Guard::new(), full(), drawn(1), drawn(2)] {
        assert!(Guard::from_bytes(&guard.to_bytes()) == Ok(guard));
    }
}

#[test]
fn a_state_that_was_loaded_goes_on() {
    let directory = Directory::new("goes-on");
    let file = directory.file("state");
    let mut guard = Guard::new();
    let user = guard.new_user().unwrap();
    let thread = guard.start_thread(user).unwrap();
    let sheet = guard.new_segment(thread, Kind::Sheet).unwrap();
    let lock = guard.add_lock(thread, sheet, Operations::READ, "U0");
    let lock = lock.unwrap();
    guard.save(&file).unwrap();
    let mut loaded = Guard::load(&file).unwrap();
    assert!(loaded == guard);
    assert_eq!(loaded.access(thread, sheet, Access::Read), Ok(lock));
    // Its thread edits, as before.
    assert_eq!(loaded.drop_lock(thread, lock), Ok(1));
}

/// What a change of the byte at this place is refused with.
fn word(place: usize) -> Load {
    match place {
        ..LAYOUT => Load::NotState,
        LAYOUT..LENGTH => Load::OtherLayout,
        _ => Load::Broken,
    }
}

/// Every bit of the head and the checksum, and a bit of each byte of the cells.
#[test]
fn no_changed_byte_is_taken() {
    let mut bytes = full().to_bytes();
    for place in 0..bytes.len() {
        let bits = match (CELLS..CHECKSUM).contains(&place) {
            true => place % 8..place % 8 + 1,
            false => 0..8,
        };
        for bit in bits {
            bytes[place] ^= 1 << bit;
            let loaded = Guard::from_bytes(&bytes);
            assert_eq!(loaded, Err(word(place)), "bit {bit} of byte {place}");
            bytes[place] ^= 1 << bit;
        }
    }
    assert!(Guard::from_bytes(&bytes).is_ok());
}

#[test]
fn no_part_of_a_file_is_taken() {
    let bytes = full().to_bytes();
    for length in 0..bytes.len() {
        let expected = match length {
            ..LAYOUT => Load::NotState,
            _ => Load::Broken,
        };
        assert_eq!(
            Guard::from_bytes(&bytes[..length]),
            Err(expected),
            "{length} bytes"
        );
    }
}

#[test]
fn nothing_longer_is_taken() {
    let bytes = full().to_bytes();
    for more in [&[0][..], b"\n", &bytes] {
        let longer = [&bytes, more].concat();
        assert_eq!(Guard::from_bytes(&longer), Err(Load::Broken));
        // Nor where the last four bytes are the checksum again.
        let longer = summed([&bytes, more, &[0; 4]].concat());
        assert_eq!(Guard::from_bytes(&longer), Err(Load::Broken));
    }
}

/// The checksum is right in each, so something else must refuse it.
#[test]
fn other_files_with_a_right_checksum() {
    let bytes = full().to_bytes();
    let with = |place: usize, new: &[u8]| {
        let mut bytes = bytes.clone();
        bytes[place..place + new.len()].copy_from_slice(new);
        summed(bytes)
    };
    assert!(Guard::from_bytes(&with(CELLS, &[7])).is_ok());
    for mark in [b"KLD\n", b"KLS\r", b"kls\n", b"\0\0\0\0"] {
        assert_eq!(Guard::from_bytes(&with(0, mark)), Err(Load::NotState));
    }
    for layout in [0, 2, 256, 257, u16::MAX] {
        let file = with(LAYOUT, &layout.to_le_bytes());
        assert_eq!(Guard::from_bytes(&file), Err(Load::OtherLayout), "{layout}");
    }
    // Of another layout nothing more is known.
    let other = [b"KLS\n", &[2, 0][..]].concat();
    assert_eq!(Guard::from_bytes(&other), Err(Load::OtherLayout));
    for length in [0, 37_919, 37_921, 0x9420_0000, u32::MAX] {
        let file = with(LENGTH, &length.to_le_bytes());
        assert_eq!(Guard::from_bytes(&file), Err(Load::Broken), "{length}");
    }
    // The length that its cells have, but they are no state's.
    let short = [b"KLS\n", &[1, 0][..], &[8, 0, 0, 0], &[0; 8], &[0; 4]].concat();
    assert_eq!(Guard::from_bytes(&summed(short)), Err(Load::Broken));
}

#[test]
fn other_kinds_of_files() {
    for bytes in [
        &b""[..],
        b"K",
        b"KLS",
        Journal::new().as_bytes(),
        b"U\nS 0\n",
    ] {
        assert_eq!(Guard::from_bytes(bytes), Err(Load::NotState));
    }
    assert_eq!(Guard::from_bytes(&[0; FILE_BYTES]), Err(Load::NotState));
}

#[test]
fn refusals_have_a_word() {
    assert_eq!(Load::NotState.to_string(), "not a state file (16)");
    assert_eq!(Load::OtherLayout.to_string(), "another layout (17)");
    assert_eq!(Load::Broken.to_string(), "broken state file (18)");
}

#[test]
fn files_that_are_not_loaded() {
    let directory = Directory::new("not-loaded");
    let file = directory.file("state");
    let refused = |load| match Guard::load(load) {
        Err(LoadError::Refused(refusal)) => refusal,
        other => panic!("{other:?}"),
    };
    fs::write(&file, [&full().to_bytes()[..], b"\n"].concat()).unwrap();
    assert_eq!(refused(file), Load::Broken);
    // Without end.
    assert_eq!(refused("/dev/zero".into()), Load::NotState);
    for name in [directory.file("missing"), directory.path().into()] {
        let error = Guard::load(name).unwrap_err();
        assert!(matches!(error, LoadError::Device(_)), "{error:?}");
    }
}
