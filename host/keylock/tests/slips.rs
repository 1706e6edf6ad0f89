//! The slips that people make in text journals: each is named, at its place.

use keylock::text::{self, Mistakes};

fn mistakes(text: &[u8]) -> Mistakes {
    text::parse(text).expect_err("a mistake")
}

/// The only mistake of a text: in its second line, at this column.
#[track_caller]
fn slip(line: impl AsRef<[u8]>, column: usize, message: &str) {
    let text = [b"U\n", line.as_ref(), b"\nU\n"].concat();
    let mistakes = mistakes(&text);
    let first = mistakes.first.iter();
    let told: Vec<_> = first
        .map(|m| (m.line, m.column, m.message.as_str()))
        .collect();
    let shown = line.as_ref().escape_ascii();
    assert_eq!(told, [(2, column, message)], "{shown}");
}

#[test]
fn a_forgotten_arrow() {
    slip("A 0 2 4 ok 2", 9, "'->' is missing before 'ok'");
    slip("A 0 2 4 no 15 0", 9, "'->' is missing before 'no'");
    slip("U ok 0", 3, "'->' is missing before 'ok'");
    slip("L 0 2 4 S0&S1 ok 2", 15, "'->' is missing before 'ok'");
    slip("L 0 2 4 \"S0\" NO 11 0", 14, "'->' is missing before 'NO'");
}

#[test]
fn a_forgotten_blank() {
    let before_arrow = "a blank is missing before '->'";
    slip("A 0 2 4-> ok 2", 8, before_arrow);
    slip("U-> ok 0", 2, before_arrow);
    let behind_letter = "a blank is missing between the letter and its field";
    slip("S0", 2, behind_letter);
    slip("  C0 1", 4, behind_letter);
    slip("U;", 2, "a comment begins with '#'");
    slip("U//x", 2, "a comment begins with '#'");
}

#[test]
fn another_arrow() {
    let behind = "an expected answer stands behind '->'";
    for arrow in ["=>", "-->", "\u{2192}", "=", "==", ">", ":"] {
        slip(format!("A 0 2 4 {arrow} ok 2"), 9, behind);
    }
}

#[test]
fn a_forgotten_second_number() {
    let write_0 = "the second number is missing: write 'no 15 0', only 14 names a lock";
    slip("A 0 2 4 -> no 15", 17, write_0);
    slip("A 0 2 4 -> no 15  # denied", 17, write_0);
    let write_0 = "the second number is missing: write 'no 1 0', only 14 names a lock";
    slip("S 9 -> no 1", 12, write_0);
    let lock = "the lock is missing: 'no 14 N', N the deny lock that opens";
    slip("C 0 2 -> no 14", 15, lock);
}

/// As a bare text's message says it.
fn no_formula(wrong: &str) -> String {
    format!("no formula: {wrong} (in quotes any text may stand)")
}

#[test]
fn a_small_key() {
    let capital = no_formula("a key has a capital letter");
    slip("L 0 2 4 s0", 9, &capital);
    slip("L 0 2 4 S0&d1", 12, &capital);
    slip("L 0 2 4 !(u0)", 11, &capital);
}

#[test]
fn operators_of_other_notations() {
    let no_blanks = |operator: &str| format!("{operator}, and a formula has no blanks");
    for and in ["AND", "and", "And"] {
        let and = format!("L 0 2 4 S0 {and} S1");
        slip(and, 12, &no_blanks("AND is written '&'"));
    }
    for or in ["OR", "or"] {
        let or = format!("L 0 2 4 S0 {or} S1");
        slip(or, 12, &no_blanks("OR is written '|'"));
    }
    for both in ["+", "*", ","] {
        let glued = format!("L 0 2 4 S0{both}S1");
        slip(glued, 11, &no_formula("AND is written '&' and OR '|'"));
        let apart = format!("L 0 2 4 S0 {both} S1");
        slip(apart, 12, &no_blanks("AND is written '&' and OR '|'"));
    }
    slip("L 0 2 4 S0andS1", 11, &no_formula("AND is written '&'"));
    slip("L 0 2 4 S0ORS1", 11, &no_formula("OR is written '|'"));
    let not = no_formula("NOT is written '!'");
    for line in ["L 0 2 4 not S0", "L 0 2 4 NOT(S0)", "L 0 2 4 ~S0"] {
        slip(line, 9, &not);
    }
    slip("L 0 2 4 S0&&S1", 12, &no_formula("AND is one '&'"));
    slip("L 0 2 4 S0||S1", 12, &no_formula("OR is one '|'"));
    // Only a formula has operators.
    slip("C 0 2 and", 7, "C takes no more than two fields");
}

#[test]
fn blanks_in_a_formula() {
    let no_blanks = no_formula("a formula has no blanks");
    slip("L 0 2 4 S0& S1", 12, &no_blanks);
    slip("L 0 2 4 (S0 | S1)", 12, &no_blanks);
    slip("L 0 2 4 ! S0 -> ok 1", 10, &no_blanks);
    let blanks = "L takes no more than its text, and a formula has no blanks";
    slip("L 0 2 4 S0 & S1", 12, blanks);
}

#[test]
fn a_word_for_a_letter() {
    for (words, letter) in [
        (["u", "User", "NewUser"], 'U'),
        (["s", "Start", "start"], 'S'),
        (["e", "End", "END"], 'E'),
        (["n", "Segment", "NewSegment"], 'N'),
        (["k", "Key", "NewKey"], 'K'),
        (["g", "Give", "GiveKey"], 'G'),
        (["t", "Take", "TakeKey"], 'T'),
        (["l", "Lock", "AddLock"], 'L'),
        (["d", "Drop", "DropLock"], 'D'),
        (["c", "Call", "call"], 'C'),
        (["r", "Return", "return"], 'R'),
        (["a", "Access", "access"], 'A'),
    ] {
        for word in words {
            let message = format!("'{word}' is no call's letter: write {letter}");
            slip(format!("  {word} 0 1 2"), 3, &message);
        }
    }
}

#[test]
fn comments_of_other_languages() {
    let comment = "a comment begins with '#'";
    slip("// a remark", 1, comment);
    slip("  //a remark", 3, comment);
    slip("; a remark", 1, comment);
    slip("-- a remark", 1, comment);
    slip("/* a remark */", 1, comment);
    slip("U // a user", 3, comment);
    slip("S 0 ; a thread", 5, comment);
    slip("S 0; a thread", 4, comment);
    slip("S 0// a thread", 4, comment);
    slip("S -- a thread", 3, comment);
    slip("U -> ok 1 // a user", 11, comment);
    slip("L 0 2 4 S0 // write", 12, comment);
    slip("L 0 2 4 S0// write", 11, comment);
    slip("L 0 2 4 // write", 9, comment);
}

#[test]
fn commas_between_numbers() {
    let commas = "numbers have blanks between them, and no commas";
    slip("A 0,2,4", 4, commas);
    slip("A 0, 2, 4", 4, commas);
    slip("A 0 2,4", 6, commas);
}

#[test]
fn a_nul_byte() {
    let nul = "a NUL byte: no text has one";
    slip(b"\0S 0", 1, nul);
    slip(b"S\0 0", 2, nul);
    slip(b"S 0\0", 4, nul);
    slip(b"S 0 \0", 5, nul);
    slip(b"L 0 2 4 S0\0", 11, nul);
    slip(b"L 0 2 4 \"S0\"\0", 13, nul);
    slip(b"S 0 -> ok 0\0", 12, nul);
    slip("S \u{E9}\0".as_bytes(), 4, nul);
    slip(b"# a comment\0", 12, nul);
    slip(b"S 0 # a comment\0", 16, nul);
    // In quotes it can be written.
    let write = "a control character in the text: write \\x00";
    slip(b"L 0 2 4 \"S0\0\"", 12, write);
}

/// The lines of an old Mac's text.
#[test]
fn carriage_returns_alone() {
    let alone = "a CR alone ends no line: save the text with LF, or CR and LF";
    let told = |text: &[u8]| {
        let mistakes = mistakes(text);
        let first = &mistakes.first[0];
        assert_eq!(first.message, alone, "{}", text.escape_ascii());
        (mistakes.count, first.line, first.column)
    };
    assert_eq!(told(b"U\rS 0\r"), (1, 1, 2));
    assert_eq!(told(b"\rU\r"), (1, 1, 1));
    assert_eq!(told(b"S 0\rU\r"), (1, 1, 4));
    assert_eq!(told(b"S 0 -> ok 0\rU\r"), (1, 1, 12));
    assert_eq!(told(b"L 0 2 4 S0\rU\r"), (1, 1, 11));
    assert_eq!(told(b"L 0 2 4 \"S0\"\rU\r"), (1, 1, 13));
    // No call is swallowed by a comment.
    assert_eq!(told(b"# The title\rU\r"), (1, 1, 12));
    assert_eq!(told(b"U # a user\rS 0\r"), (1, 1, 11));
    // One that went astray.
    assert_eq!(told(b"U\r\nS\r 0\r\nU\r\r\n"), (2, 2, 2));
    assert!(text::parse(b"# The title\r").is_ok());
}
