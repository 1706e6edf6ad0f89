//! A text's mistakes, each with its line and a caret under the place.

use super::failure::{Failure, Status};
use super::source::Name;
use keylock::figures::{counted, grouped};
use keylock::shown::{characters, is_plain};
use keylock::text::{self, Mistake, Mistakes};

/// The most characters of a line that are shown.
const WIDEST: usize = 76;

pub fn failure(name: &Name, text: &[u8], mistakes: &Mistakes) -> Failure {
    let mut lines = text::lines(text).enumerate();
    let mut report = String::new();
    for mistake in &mistakes.first {
        let Mistake {
            line,
            column,
            message,
        } = mistake;
        report += &format!("keylock: {name}:{line}:{column}: {message}\n");
        // Mistakes come in the order of the lines.
        if let Some((_, source)) = lines.find(|(place, _)| place + 1 == *line) {
            report += &excerpt(source, column - 1);
        }
    }
    let more = mistakes.count - mistakes.first.len();
    if more > 0 {
        report += &format!("and {} more\n", grouped(more));
    }
    report += &format!(
        "{}; nothing was written\n",
        counted(mistakes.count, "mistake")
    );
    Failure {
        status: Status::Input,
        report,
    }
}

/// The part of a line around a character, and a caret under it.
fn excerpt(line: &[u8], character: usize) -> String {
    let start = match character < WIDEST {
        true => 0,
        false => character - WIDEST / 2,
    };
    let mut rest = characters(line).skip(start);
    let part: Vec<char> = rest.by_ref().take(WIDEST).map(shown).collect();
    let before = if start > 0 { "..." } else { "" };
    let after = if rest.next().is_some() { "..." } else { "" };
    let left = part.iter().take(character - start);
    let columns: usize = left.map(|character| width(*character)).sum();
    let caret = " ".repeat(before.len() + columns);
    let part: String = part.iter().collect();
    format!("  {before}{part}{after}\n  {caret}^\n")
}

fn shown(character: char) -> char {
    match character {
        '\t' => ' ',
        other if is_plain(other) => other,
        _ => char::REPLACEMENT_CHARACTER,
    }
}

/// The columns of a plain character on most terminals.
fn width(character: char) -> usize {
    match character {
        '\u{1100}'..='\u{115F}'
        | '\u{2E80}'..='\u{A4CF}'
        | '\u{AC00}'..='\u{D7A3}'
        | '\u{F900}'..='\u{FAFF}'
        | '\u{FE30}'..='\u{FE6F}'
        | '\u{FF00}'..='\u{FF60}'
        | '\u{FFE0}'..='\u{FFE6}'
        | '\u{1F300}'..='\u{1FAFF}'
        | '\u{20000}'..='\u{3FFFD}' => 2,
        _ => 1,
    }
}

#[cfg(test)]
mod tests {
    use super::excerpt;

    #[test]
    fn the_caret_is_under_the_place() {
        assert_eq!(excerpt(b"C 0", 3), "  C 0\n     ^\n");
        assert_eq!(excerpt(b"Z", 0), "  Z\n  ^\n");
        assert_eq!(excerpt(b"\tC\t0\tx", 5), "   C 0 x\n       ^\n");
        assert_eq!(excerpt(b"\xFF\x00 x", 3), "  \u{FFFD}\u{FFFD} x\n     ^\n");
        let wide = "\"\u{9375}\" x".as_bytes();
        assert_eq!(excerpt(wide, 4), "  \"\u{9375}\" x\n       ^\n");
    }

    #[test]
    fn long_lines_are_cut() {
        let long = "x".repeat(100);
        let right = format!("  {}...\n  {}^\n", "x".repeat(76), " ".repeat(75));
        assert_eq!(excerpt(long.as_bytes(), 75), right);
        // From 38 characters before the place on.
        let right = format!("  ...{}\n  {}^\n", "x".repeat(58), " ".repeat(3 + 38));
        assert_eq!(excerpt(long.as_bytes(), 80), right);
        let right = format!("  ...{}\n  {}^\n", "x".repeat(38), " ".repeat(3 + 38));
        assert_eq!(excerpt(long.as_bytes(), 100), right);
    }
}
