//! The slips that people make in a text journal, and what is meant.

use crate::letters::Letter;

pub const COMMENT: &str = "a comment begins with '#'";
pub const NUL: &str = "a NUL byte: no text has one";
pub const CARRIAGE_RETURN: &str = "a CR alone ends no line: save the text with LF, or CR and LF";

pub const NO_BLANK_BEFORE_ARROW: &str = "a blank is missing before '->'";

/// What is wrong where this follows a letter without a blank, if it is plain.
pub fn glued(rest: &[u8]) -> Option<&'static str> {
    match rest {
        [b'-', b'>', ..] => Some(NO_BLANK_BEFORE_ARROW),
        [b'0'..=b'9', ..] => Some("a blank is missing between the letter and its field"),
        _ if begins_comment(rest) => Some(COMMENT),
        _ => None,
    }
}

/// Whether a comment of another language begins here.
pub fn begins_comment(bytes: &[u8]) -> bool {
    let marks: [&[u8]; 4] = [b"//", b"/*", b"--", b";"];
    marks.iter().any(|mark| bytes.starts_with(mark))
}

/// Whether a word stands for `->` elsewhere.
pub fn is_arrow(word: &[u8]) -> bool {
    let arrows = ["=>", "-->", "\u{2192}", "=", "==", ">", ":"];
    arrows.iter().any(|arrow| word == arrow.as_bytes())
}

/// The letter that is meant by a small one, or by its call's name.
pub fn letter(word: &[u8]) -> Option<Letter> {
    let is = |name: &str| word.eq_ignore_ascii_case(name.as_bytes());
    let means = |letter: &Letter| {
        let [one, whole] = [letter.char().to_string(), format!("{letter:?}")];
        is(&one) || is(word_for(*letter)) || is(&whole)
    };
    Letter::ALL.into_iter().find(means)
}

/// A letter's call in a word.
fn word_for(letter: Letter) -> &'static str {
    match letter {
        Letter::NewUser => "user",
        Letter::StartThread => "start",
        Letter::EndThread => "end",
        Letter::NewSegment => "segment",
        Letter::NewKey => "key",
        Letter::GiveKey => "give",
        Letter::TakeKey => "take",
        Letter::AddLock => "lock",
        Letter::DropLock => "drop",
        Letter::CallSegment => "call",
        Letter::ReturnCall => "return",
        Letter::Access => "access",
    }
}

/// The first byte of a word that no text has, and what it is.
pub fn stray(word: &[u8]) -> Option<(usize, &'static str)> {
    let place = word.iter().position(|byte| matches!(byte, 0 | b'\r'))?;
    let name = match word[place] {
        0 => NUL,
        _ => CARRIAGE_RETURN,
    };
    Some((place, name))
}
