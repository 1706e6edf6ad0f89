//! Text in a page.

use crate::shown;
use crate::words::capital;

/// A blank that doesn't break a line.
const NO_BREAK: char = '\u{a0}';

/// The text with everything that HTML would read as its own made harmless, and
/// characters that are invisible or change their neighbours as `\u{202e}`.
pub fn escaped(text: &str) -> String {
    let mut safe = String::with_capacity(text.len());
    for next in text.chars() {
        match next {
            '&' => safe.push_str("&amp;"),
            '<' => safe.push_str("&lt;"),
            '>' => safe.push_str("&gt;"),
            '"' => safe.push_str("&quot;"),
            '\'' => safe.push_str("&#39;"),
            next if shown::is_plain(next) || is_blank(next) || is_mark(next) => safe.push(next),
            next => safe.extend(next.escape_debug()),
        }
    }
    safe
}

/// A blank of any width, such as those in Japanese texts.
fn is_blank(character: char) -> bool {
    let breaks_a_line = matches!(character, '\u{2028}' | '\u{2029}');
    character.is_whitespace() && !character.is_control() && !breaks_a_line
}

/// A mark on the letter before it: an accent, or a vowel in Hindi.
fn is_mark(character: char) -> bool {
    // Behind a letter, only what isn't visible is escaped.
    let behind_a_letter = format!("a{character}");
    behind_a_letter.escape_debug().count() == 2
}

/// The same, with a number beside a name smaller, and with no line break between
/// a thing and its number.
pub fn said(text: &str) -> String {
    let mut said = String::new();
    let mut rest = text;
    while let Some(start) = rest.find('(') {
        let (before, bracket) = rest.split_at(start);
        said += &unbroken(before);
        let length = number_in_brackets(bracket);
        said += &match length {
            Some(length) => format!("<small>{}</small>", unbroken(&bracket[..length])),
            None => "(".to_string(),
        };
        rest = &bracket[length.unwrap_or(1)..];
    }
    said + &unbroken(rest)
}

/// The same, with a capital letter in front.
pub fn sentence(text: &str) -> String {
    said(&capital(text))
}

/// The length of `(segment 0)`, where that comes next.
fn number_in_brackets(text: &str) -> Option<usize> {
    let inside = text.strip_prefix('(')?;
    let length = inside.find(')')?;
    let (kind, number) = inside[..length].split_once(' ')?;
    let number = match kind {
        "user" | "thread" | "segment" => number,
        "key" => number.strip_prefix('D')?,
        _ => return None,
    };
    let digits = number.bytes().all(|byte| byte.is_ascii_digit());
    (digits && !number.is_empty()).then_some(length + 2)
}

fn unbroken(text: &str) -> String {
    let safe = escaped(text);
    let mut unbroken = String::with_capacity(safe.len());
    let mut rest = safe.chars().peekable();
    while let Some(next) = rest.next() {
        let number = rest.peek().is_some_and(char::is_ascii_digit);
        unbroken.push(if next == ' ' && number {
            NO_BREAK
        } else {
            next
        });
    }
    unbroken
}

/// A formula, or a call with one, that may break after an operator.
pub fn formula(text: &str) -> String {
    let pieces = text.split_inclusive(['&', '|']).map(escaped);
    pieces.collect::<Vec<_>>().join("<wbr>")
}

#[cfg(test)]
mod tests {
    use super::{said, sentence};

    #[test]
    fn numbers_beside_names_are_smaller() {
        assert_eq!(
            sentence("the May closing (thread 1) calls segment 0"),
            "The May closing <small>(thread\u{a0}1)</small> calls segment\u{a0}0"
        );
        assert_eq!(
            said("audit (key D3) <&> x"),
            "audit <small>(key D3)</small> &lt;&amp;&gt; x"
        );
        for plain in [
            "no way in (15)",
            "(segment )",
            "(segment x)",
            "(",
            "(key 3)",
        ] {
            assert!(!said(plain).contains("<small>"), "{plain}");
        }
    }
}
