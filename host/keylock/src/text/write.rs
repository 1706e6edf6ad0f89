//! Text journals from journals.

use crate::letters::Letter;
use crate::{spelling, words};
use rotundaaloe::{Journal, Record};
use std::fmt::Write;

/// Comments stand in one column, unless a call is longer than this.
const WIDEST: usize = 40;

/// The text of a journal: its calls, each with its place and what it says.
/// Parsed again, it is the same journal.
pub fn disassemble(journal: &Journal) -> String {
    let calls: Vec<String> = journal.records().map(|record| call(&record)).collect();
    let widths = calls.iter().map(String::len);
    let width = widths.filter(|width| *width <= WIDEST).max().unwrap_or(0);
    let mut text = String::new();
    for (place, (call, record)) in calls.iter().zip(journal.records()).enumerate() {
        let words = words::call(&record);
        text += &format!("{call:width$}  # {place}: {words}\n");
    }
    if text.is_empty() {
        text += "# a journal without records\n";
    }
    text
}

/// A call as a line of a text: `L 0 2 4 S0&S1`.
pub fn call(record: &Record) -> String {
    let mut line = char::from(record.letter).to_string();
    let letter = Letter::of(record.letter);
    let named = letter.map_or(3, |letter| letter.fields().len());
    for field in &[record.a, record.b, record.c][..named] {
        line += &format!(" {field}");
    }
    if letter.is_some_and(Letter::has_text) {
        line.push(' ');
        line += &formula_text(record.text);
    }
    line
}

/// Bare if it is a formula.
fn formula_text(text: &[u8]) -> String {
    if spelling::fault(text).is_none() {
        return text.iter().map(|byte| char::from(*byte)).collect();
    }
    let mut quoted = "\"".to_string();
    for byte in text {
        match byte {
            b'"' | b'\\' => quoted.extend(['\\', char::from(*byte)]),
            b' '..=b'~' => quoted.push(char::from(*byte)),
            _ => write!(quoted, "\\x{byte:02X}").expect("a string takes everything"),
        }
    }
    quoted + "\""
}
