//! Numbers for people.

/// With a comma before each three digits: `65,535`.
pub fn grouped(number: usize) -> String {
    let digits = number.to_string();
    let mut grouped = String::new();
    for (place, digit) in digits.chars().enumerate() {
        if place > 0 && (digits.len() - place).is_multiple_of(3) {
            grouped.push(',');
        }
        grouped.push(digit);
    }
    grouped
}

/// A number with its noun: `1 mistake`, `3 mistakes`.
pub fn counted(number: usize, noun: &str) -> String {
    let s = if number == 1 { "" } else { "s" };
    format!("{} {noun}{s}", grouped(number))
}

/// A small number as a word, for sentences: `two`.
pub fn spelt(number: usize) -> String {
    let words = ["no", "one", "two", "three", "four", "five", "six"];
    let word = words.get(number).map(ToString::to_string);
    word.unwrap_or_else(|| grouped(number))
}
