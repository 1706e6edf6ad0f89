//! Journals written out by hand from document 01, for tests: records, and the
//! bytes that a file has of them.

use reference::journal::Record;
use reference::letter::Letter;

/// The bytes that a text of hexadecimal numbers names.
pub fn hex(text: &str) -> Vec<u8> {
    text.split_whitespace()
        .map(|byte| u8::from_str_radix(byte, 16).expect("two hexadecimal digits"))
        .collect()
}

/// A record and its bytes, both by hand.
pub type Written = (u8, [u16; 3], &'static str, &'static str);

/// The records of document 01's first worked example, as document 02's P4 leaves
/// it.
pub const OFFICE: [Written; 16] = [
    (b'U', [0, 0, 0], "", "55 00 00 00 00 00 00 00 00"),
    (b'S', [0, 0, 0], "", "53 00 00 00 00 00 00 00 00"),
    (b'S', [0, 0, 0], "", "53 00 00 00 00 00 00 00 00"),
    (b'N', [0, 0, 0], "", "4E 00 00 00 00 00 00 00 00"),
    (b'N', [0, 0, 0], "", "4E 00 00 00 00 00 00 00 00"),
    (b'N', [0, 1, 0], "", "4E 00 00 01 00 00 00 00 00"),
    (b'L', [0, 0, 1], "U0", "4C 00 00 00 00 01 00 02 00 55 30"),
    (b'L', [0, 1, 1], "U0", "4C 00 00 01 00 01 00 02 00 55 30"),
    (
        b'L',
        [0, 2, 4],
        "S0&S1",
        "4C 00 00 02 00 04 00 05 00 53 30 26 53 31",
    ),
    (b'C', [0, 0, 0], "", "43 00 00 00 00 00 00 00 00"),
    (b'C', [0, 1, 0], "", "43 00 00 01 00 00 00 00 00"),
    (b'C', [1, 1, 0], "", "43 01 00 01 00 00 00 00 00"),
    (b'A', [0, 2, 4], "", "41 00 00 02 00 04 00 00 00"),
    (b'A', [1, 2, 4], "", "41 01 00 02 00 04 00 00 00"),
    (b'R', [0, 0, 0], "", "52 00 00 00 00 00 00 00 00"),
    (b'A', [0, 2, 4], "", "41 00 00 02 00 04 00 00 00"),
];

/// Every letter, with something in each field that its call names.
pub const EVERY_LETTER: [Written; Letter::ALL.len()] = [
    (b'U', [0, 0, 0], "", "55 00 00 00 00 00 00 00 00"),
    (b'S', [258, 0, 0], "", "53 02 01 00 00 00 00 00 00"),
    (b'E', [772, 0, 0], "", "45 04 03 00 00 00 00 00 00"),
    (b'N', [1_286, 1_800, 0], "", "4E 06 05 08 07 00 00 00 00"),
    (b'K', [65_535, 0, 0], "", "4B FF FF 00 00 00 00 00 00"),
    (b'G', [513, 1_027, 1_541], "", "47 01 02 03 04 05 06 00 00"),
    (b'T', [256, 512, 768], "", "54 00 01 00 02 00 03 00 00"),
    (b'L', [255, 254, 253], "!", "4C FF 00 FE 00 FD 00 01 00 21"),
    (b'D', [32_768, 32_767, 0], "", "44 00 80 FF 7F 00 00 00 00"),
    (b'C', [8_208, 16_432, 0], "", "43 10 20 30 40 00 00 00 00"),
    (b'R', [1, 0, 0], "", "52 01 00 00 00 00 00 00 00"),
    (b'A', [1, 2, 3], "", "41 01 00 02 00 03 00 00 00"),
];

pub fn record(written: &Written) -> Record {
    let (letter, [a, b, c], text, _) = *written;
    Record {
        letter,
        a,
        b,
        c,
        text: text.as_bytes().to_vec(),
    }
}

/// The bytes of a file of these records, by the hand-written ones. Only the
/// count, below 256, is put in.
pub fn file(written: &[Written]) -> Vec<u8> {
    let mut file = hex("4B 4C 44 02 00");
    file.extend([written.len() as u8, 0]);
    file.extend(written.iter().flat_map(|(.., bytes)| hex(bytes)));
    file
}
