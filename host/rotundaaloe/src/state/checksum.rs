//! The CRC-32 of zip, PNG and Ethernet.

/// Its polynomial with the lowest power first.
const POLYNOMIAL: u32 = 0xEDB8_8320;

/// What a byte's bits make of the remainder.
const TABLE: [u32; 256] = {
    let mut table = [0; 256];
    let mut byte = 0;
    while byte < table.len() {
        table[byte] = shifted(byte as u32);
        byte += 1;
    }
    table
};

const fn shifted(byte: u32) -> u32 {
    let mut remainder = byte;
    let mut bit = 0;
    while bit < 8 {
        let carry = remainder & 1;
        remainder = (remainder >> 1) ^ (carry * POLYNOMIAL);
        bit += 1;
    }
    remainder
}

pub fn crc32(bytes: &[u8]) -> u32 {
    let next = |remainder: u32, byte: &u8| {
        let [lowest, ..] = remainder.to_le_bytes();
        (remainder >> 8) ^ TABLE[usize::from(lowest ^ byte)]
    };
    !bytes.iter().fold(u32::MAX, next)
}

#[cfg(test)]
mod tests {
    use super::crc32;

    /// The check value that catalogues of CRCs give, and what gzip keeps for the
    /// other texts.
    #[test]
    fn numbers_from_elsewhere() {
        assert_eq!(crc32(b""), 0);
        assert_eq!(crc32(b"123456789"), 0xCBF4_3926);
        assert_eq!(crc32(b"a"), 0xE8B7_BE43);
        assert_eq!(
            crc32(b"The quick brown fox jumps over the lazy dog"),
            0x414F_A339
        );
        assert_eq!(crc32(&[0; 32]), 0x190A_55AD);
        assert_eq!(crc32(&[0xFF; 32]), 0xFF6C_AB0B);
    }
}
