//! Where a formula text leaves the grammar. Whether it does is the proved
//! compiler's verdict; this only points.

use rotundaaloe::formula::{Issued, compile};
use rotundaaloe::refusal::Compile;

/// The most brackets around a key.
const MOST_BRACKETS: usize = 8;

pub const NO_BLANKS: &str = "a formula has no blanks";
const AND: &str = "AND is written '&'";
const OR: &str = "OR is written '|'";
const NOT: &str = "NOT is written '!'";
const AND_OR: &str = "AND is written '&' and OR '|'";

/// Every key that a text can name.
const EVERY_KEY: Issued = Issued {
    users: 65_536,
    threads: 65_536,
    segments: 65_536,
    defined: 65_536,
};

/// The first place of a text, from 0, where it leaves the grammar, and what is
/// wrong there. `None` where it doesn't, whichever keys it names.
pub fn fault(text: &[u8]) -> Option<(usize, &'static str)> {
    match compile(text, EVERY_KEY) {
        Err(Compile::Malformed) => Some(place(text).unwrap_or((0, "it isn't in the grammar"))),
        _ => None,
    }
}

fn place(text: &[u8]) -> Option<(usize, &'static str)> {
    let mut depth = 0;
    let mut operand_next = true;
    let mut at = 0;
    while let Some(&byte) = text.get(at) {
        let start = at;
        let wrong = match (operand_next, byte) {
            (true, b'!') => None,
            (true, b'(') => {
                depth += 1;
                (depth > MOST_BRACKETS).then_some("brackets are at most 8 deep")
            }
            (true, b'U' | b'R' | b'S' | b'D') => {
                operand_next = false;
                let digits = digits(&text[at + 1..]);
                at += digits.len();
                number_fault(digits)
            }
            (_, b' ') => Some(NO_BLANKS),
            (true, _) => Some(no_operand(text, at)),
            (false, b'&' | b'|') => {
                operand_next = true;
                None
            }
            (false, b')') if depth > 0 => {
                depth -= 1;
                None
            }
            (false, b')') => Some("no bracket is open there"),
            (false, _) => Some(no_operator(&text[at..], depth)),
        };
        if let Some(wrong) = wrong {
            return Some((start, wrong));
        }
        at += 1;
    }
    match (operand_next, depth) {
        (true, _) => Some((at, "a key, '!' or '(' is missing there")),
        (false, 0) => None,
        (false, _) => Some((at, "a bracket isn't closed there")),
    }
}

/// Why no operand stands at a place.
fn no_operand(text: &[u8], at: usize) -> &'static str {
    let before = at.checked_sub(1).map(|before| text[before]);
    match text[at..] {
        [b'u' | b'r' | b's' | b'd', b'0'..=b'9', ..] => "a key has a capital letter",
        [b'&', ..] if before == Some(b'&') => "AND is one '&'",
        [b'|', ..] if before == Some(b'|') => "OR is one '|'",
        [b'~' | b'-', ..] => NOT,
        _ if begins(&text[at..], "not") => NOT,
        _ => "a key, '!' or '(' should stand there",
    }
}

/// Why no operator stands at the start of these bytes, within so many brackets.
fn no_operator(rest: &[u8], depth: usize) -> &'static str {
    match foreign_operator(rest) {
        Some(operator) => operator,
        None if depth > 0 => "'&', '|' or ')' should stand there",
        None => "'&' or '|' should stand there",
    }
}

/// What to write for another notation's operator, where one begins here.
pub fn foreign_operator(bytes: &[u8]) -> Option<&'static str> {
    match bytes {
        [b'+' | b'*' | b',' | b'^', ..] => Some(AND_OR),
        _ if begins(bytes, "and") => Some(AND),
        _ if begins(bytes, "or") => Some(OR),
        _ => None,
    }
}

/// Whether the bytes begin with a word, in capitals or not, which ends there or
/// has a key glued to it.
fn begins(bytes: &[u8], word: &str) -> bool {
    let Some((start, rest)) = bytes.split_at_checked(word.len()) else {
        return false;
    };
    let ends = match rest {
        [] => true,
        [_, b'0'..=b'9', ..] => true,
        [next, ..] => !next.is_ascii_alphabetic(),
    };
    ends && start.eq_ignore_ascii_case(word.as_bytes())
}

fn digits(text: &[u8]) -> &[u8] {
    let count = text.iter().take_while(|byte| byte.is_ascii_digit()).count();
    &text[..count]
}

fn number_fault(digits: &[u8]) -> Option<&'static str> {
    match digits {
        [] => Some("a key's number is missing there"),
        [b'0', _, ..] => Some("a key's number has no leading zero"),
        digits => {
            let number = str::from_utf8(digits).ok()?.parse::<u16>();
            number.is_err().then_some("a key's number is at most 65535")
        }
    }
}

#[cfg(test)]
mod tests {
    use super::{fault, place};

    #[track_caller]
    fn at(text: &str, place: usize, wrong: &str) {
        assert_eq!(fault(text.as_bytes()), Some((place, wrong)), "{text}");
    }

    #[test]
    fn the_place_is_named() {
        at("S0&*S1", 3, "a key, '!' or '(' should stand there");
        at("S0 & S1", 2, "a formula has no blanks");
        at(" S0", 0, "a formula has no blanks");
        at("S0S1", 2, "'&' or '|' should stand there");
        at("(S0S1)", 3, "'&', '|' or ')' should stand there");
        at("u", 0, "a key, '!' or '(' should stand there");
        at("S0&", 3, "a key, '!' or '(' is missing there");
        at("(S0", 3, "a bracket isn't closed there");
        at("S0)", 2, "no bracket is open there");
        at("S&D0", 0, "a key's number is missing there");
        at("!D01", 1, "a key's number has no leading zero");
        at("D65536", 0, "a key's number is at most 65535");
        at("(((((((((D0)))))))))", 8, "brackets are at most 8 deep");
        assert_eq!(fault(b"!(D0|D1)&U3"), None);
    }

    #[test]
    fn other_notations_are_told_of_this_one() {
        for key in ["u0", "r1", "s0", "d65535"] {
            at(key, 0, "a key has a capital letter");
            at(&format!("!(D0&{key})"), 5, "a key has a capital letter");
        }
        for and in ["S0AND S1", "S0andS1", "S0And(S1)", "S0and!S1"] {
            at(and, 2, "AND is written '&'");
        }
        for or in ["S0OR S1", "S0orS1", "S0or"] {
            at(or, 2, "OR is written '|'");
        }
        for not in ["NOT", "not(S0)", "notS0", "~S0", "-S0"] {
            at(not, 0, "NOT is written '!'");
        }
        for both in ["S0+S1", "S0*S1", "S0,S1", "S0^S1"] {
            at(both, 2, "AND is written '&' and OR '|'");
        }
        at("S0&&S1", 3, "AND is one '&'");
        at("S0||S1", 3, "OR is one '|'");
        at("S0|&S1", 3, "a key, '!' or '(' should stand there");
        // No word of these.
        at("S0order", 2, "'&' or '|' should stand there");
        at("nothing", 0, "a key, '!' or '(' should stand there");
    }

    /// There is a place exactly where the proved compiler finds a text misspelt.
    #[test]
    fn the_proved_compiler_agrees() {
        const LETTERS: [u8; 8] = *b"S10!&|()";
        let (mut right, mut wrong) = (0, 0);
        for length in 1..=6 {
            for number in 0..LETTERS.len().pow(length) {
                let letter = |place| LETTERS[number / LETTERS.len().pow(place) % LETTERS.len()];
                let text: Vec<u8> = (0..length).map(letter).collect();
                assert_eq!(fault(&text), place(&text), "{}", text.escape_ascii());
                let count = if fault(&text).is_some() {
                    &mut wrong
                } else {
                    &mut right
                };
                *count += 1;
            }
        }
        assert!(
            right > 100 && wrong > 200_000,
            "{right} right, {wrong} wrong"
        );
    }
}
