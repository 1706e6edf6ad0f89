//! Texts from anywhere, made harmless.

/// Whether a character shows as itself and does nothing else: it is no control,
/// isn't invisible, and changes none of its neighbours.
pub fn is_plain(character: char) -> bool {
    matches!(character, ' '..='~') || character.escape_debug().count() == 1
}

/// The text with every character that isn't plain escaped: `\n`, `\u{202e}`.
pub fn escaped(text: &str) -> String {
    let mut shown = String::new();
    for character in text.chars() {
        match is_plain(character) {
            true => shown.push(character),
            false => shown.extend(character.escape_debug()),
        }
    }
    shown
}

/// The characters of bytes that may be no text: each piece that is no UTF-8 is one
/// replacement character.
pub fn characters(bytes: &[u8]) -> impl Iterator<Item = char> {
    bytes.utf8_chunks().flat_map(|chunk| {
        let broken = !chunk.invalid().is_empty();
        let replacement = broken.then_some(char::REPLACEMENT_CHARACTER);
        chunk.valid().chars().chain(replacement)
    })
}

/// The first characters of bytes that may be no text, and dots where there are
/// more.
pub fn start(bytes: &[u8], most: usize) -> String {
    let mut characters = characters(bytes);
    let mut start: String = characters.by_ref().take(most).collect();
    if characters.next().is_some() {
        start += "...";
    }
    start
}

/// Bytes that should be ASCII, with the others as `\xHH`.
pub fn bytes(bytes: &[u8]) -> String {
    let shown = |byte: &u8| match byte {
        b' '..=b'~' => char::from(*byte).to_string(),
        byte => format!("\\x{byte:02X}"),
    };
    bytes.iter().map(shown).collect()
}

#[cfg(test)]
mod tests {
    use super::{bytes, characters, escaped, start};

    #[test]
    fn what_is_no_text_is_replaced() {
        let shown = |bytes| characters(bytes).collect::<String>();
        assert_eq!(shown("a\u{9375}".as_bytes()), "a\u{9375}");
        assert_eq!(shown(b"\xFF\xFEa\xC3"), "\u{FFFD}\u{FFFD}a\u{FFFD}");
        // Three bytes of four are one piece.
        assert_eq!(shown(b"\xF0\x9F\x94b"), "\u{FFFD}b");
    }

    #[test]
    fn long_texts_are_cut() {
        assert_eq!(start(b"abc", 3), "abc");
        assert_eq!(start(b"abcd", 3), "abc...");
        assert_eq!(start("\u{9375}\u{9375}".as_bytes(), 1), "\u{9375}...");
        assert_eq!(start(b"", 0), "");
    }

    #[test]
    fn bytes_beyond_ascii_are_escaped() {
        assert_eq!(bytes(b"S0&S1 ~"), "S0&S1 ~");
        assert_eq!(bytes(b"\n\x7F\xFF"), "\\x0A\\x7F\\xFF");
    }

    #[test]
    fn plain_texts_stay_and_others_are_escaped() {
        for plain in ["a'b\"c\\d ~", "\u{9375} \u{E9} \u{FFFD} \u{1F511}"] {
            assert_eq!(escaped(plain), plain);
        }
        assert_eq!(escaped("a\n\t\x1B[2J\0"), "a\\n\\t\\u{1b}[2J\\0");
        assert_eq!(
            escaped("\u{202E}\u{200B}\u{9B}"),
            "\\u{202e}\\u{200b}\\u{9b}"
        );
        assert_eq!(escaped("e\u{301}"), "e\\u{301}");
    }
}
