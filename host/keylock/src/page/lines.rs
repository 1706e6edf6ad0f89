//! The lines of an introduction or of a heading.

use super::html::escaped;
use crate::figures::counted;

/// A page with many more of them is slow to load.
const MOST_LINES: usize = 200;

/// The first lines, and one that counts the others.
pub fn drawn(lines: &[String]) -> Vec<String> {
    let first = lines.iter().take(MOST_LINES);
    let mut drawn: Vec<String> = first.map(|line| escaped(line)).collect();
    let more = lines.len() - drawn.len();
    if more > 0 {
        drawn.push(format!("and {}", counted(more, "more line")));
    }
    drawn
}
