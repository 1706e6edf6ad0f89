//! Text journals: the grammar, each mistake's place, and journals to text and
//! back.

use keylock::answer::Answer;
use keylock::text::{self, Line, Text};
use keylock::words;
use reference::journal::{self, Record};
use reference::letter::Letter;
use rotundaaloe::{Guard, Journal};
use testing::calls::{Caller, WORLDS, shaped};
use testing::random::Random;

/// The message for a word, as it is shown, that is no call's letter.
fn no_letter(shown: &str) -> String {
    let letters = Letter::ALL.map(|letter| letter.char().to_string());
    let letters = letters.join(" ");
    format!("{shown} is no call's letter: one of {letters}")
}

#[track_caller]
fn read(text: &[u8]) -> Text {
    text::parse(text).unwrap_or_else(|mistakes| panic!("{mistakes:?}"))
}

/// The only record of a text.
#[track_caller]
fn record(text: &[u8]) -> (u8, [u16; 3], Vec<u8>) {
    let text = read(text);
    let records: Vec<_> = text.journal.records().collect();
    let [record] = records[..] else {
        panic!("{} records", records.len());
    };
    let fields = [record.a, record.b, record.c];
    (record.letter, fields, record.text.to_vec())
}

/// The line, column and message of each mistake.
fn places(text: &[u8]) -> Vec<(usize, usize, String)> {
    let mistakes = text::parse(text).expect_err("a mistake");
    let first = mistakes.first.into_iter();
    first.map(|m| (m.line, m.column, m.message)).collect()
}

/// The only mistake of a line.
#[track_caller]
fn wrong(line: impl AsRef<[u8]>, column: usize, message: &str) {
    let line = line.as_ref();
    assert_eq!(
        places(line),
        [(1, column, message.to_string())],
        "{}",
        line.escape_ascii()
    );
}

#[test]
fn every_letter_with_its_fields() {
    let written: [(&str, [u16; 3], &[u8]); Letter::ALL.len()] = [
        ("U", [0, 0, 0], b""),
        ("S 1", [1, 0, 0], b""),
        ("E 2", [2, 0, 0], b""),
        ("N 3 1", [3, 1, 0], b""),
        ("K 4", [4, 0, 0], b""),
        ("G 5 6 7", [5, 6, 7], b""),
        ("T 8 9 10", [8, 9, 10], b""),
        ("L 1 2 4 U0", [1, 2, 4], b"U0"),
        ("D 11 12", [11, 12, 0], b""),
        ("C 13 14", [13, 14, 0], b""),
        ("R 65535", [65_535, 0, 0], b""),
        ("A 0 2 4", [0, 2, 4], b""),
    ];
    for ((line, fields, text), letter) in written.into_iter().zip(Letter::ALL) {
        let right = (letter.byte(), fields, text.to_vec());
        assert_eq!(record(line.as_bytes()), right, "{line}");
    }
}

#[test]
fn the_journal_is_the_file_of_document_01() {
    let text = read(b"N 0 1\nL 0 2 260 U0\n");
    let right = b"KLD\x02\0\x02\0N\0\0\x01\0\0\0\0\0L\0\0\x02\0\x04\x01\x02\0U0";
    assert_eq!(text.journal.as_bytes(), right);
    assert_eq!(read(b"").journal.as_bytes(), b"KLD\x02\0\0\0");
}

#[test]
fn blanks_ends_and_the_byte_order_mark() {
    assert_eq!(record(b"\t G\t5  6 7 \t"), (b'G', [5, 6, 7], vec![]));
    assert_eq!(record(b"\xEF\xBB\xBFU\r\n\r\n"), (b'U', [0, 0, 0], vec![]));
    assert_eq!(record(b"S 1\r"), (b'S', [1, 0, 0], vec![]));
    assert_eq!(record(b"S 1# no blank"), (b'S', [1, 0, 0], vec![]));
    assert_eq!(read(b"U\r\nU\nU").journal.records().count(), 3);
    assert_eq!(
        record(b"U #\xFF\x0C\x01 any bytes but NUL and CR"),
        (b'U', [0, 0, 0], vec![])
    );
}

#[test]
fn formula_texts() {
    let text = |line: &[u8]| record(line).2;
    assert_eq!(text(b"L 0 2 4 !(S0&S1)|D3"), b"!(S0&S1)|D3");
    assert_eq!(text(br#"L 0 2 4 "S0->S1""#), b"S0->S1");
    assert_eq!(text(b"L 0 2 4 U0#comment"), b"U0");
    assert_eq!(text(br#"L 0 2 4 "S0 & \x00\"\\""#), b"S0 & \0\"\\");
    assert_eq!(text(br#"L 0 2 4 "\xfF\xAb""#), b"\xFF\xAB");
    assert_eq!(text(br#"L 0 2 4 "-> ok 1" -> no 11 0"#), b"-> ok 1");
    assert_eq!(text(br##"L 0 2 4 "a#b"# c"##), b"a#b");
    assert_eq!(
        text("L 0 2 4 \"\u{9375}\u{1F511}\"".as_bytes()),
        "\u{9375}\u{1F511}".as_bytes()
    );
    let longest = "!".repeat(94) + "D0";
    assert_eq!(
        text(format!("L 0 2 4 {longest}").as_bytes()),
        longest.as_bytes()
    );
    let escaped = "\\x41".repeat(96);
    assert_eq!(
        text(format!("L 0 2 4 \"{escaped}\"").as_bytes()),
        [b'A'; 96]
    );
}

#[test]
fn expected_answers() {
    let expected = |line: &[u8]| read(line).lines[0].expected;
    assert_eq!(expected(b"U"), None);
    assert_eq!(expected(b"U -> ok 0"), Some(Answer::Ok(0)));
    let no = |refusal, second| Some(Answer::No { refusal, second });
    assert_eq!(expected(b"A 0 2 4 -> no 15 0 # so"), no(15, 0));
    assert_eq!(expected(b"C 0 2\t->\tno\t14\t65535"), no(14, 65_535));
    assert_eq!(expected(b"L 0 2 4 U0 -> ok 7#x"), Some(Answer::Ok(7)));
    let text = read(b"U -> ok 0\nU\nU -> ok 2\n");
    assert_eq!(text.expected(), 2);
}

#[test]
fn comments_are_kept() {
    let text = read(
        b"# The title\n#  and more \n\n# of the first\nU # a user\n#\n\
          # of the second\n\nS 0 #\n\nS 0#\xFF\n# the end\n",
    );
    assert_eq!(text.introduction, ["The title", "and more"]);
    let line = |number, comment: Option<&str>, heading: &[&str]| Line {
        number,
        expected: None,
        comment: comment.map(str::to_string),
        heading: heading.iter().map(|line| line.to_string()).collect(),
    };
    let right = [
        line(5, Some("a user"), &["of the first"]),
        line(9, None, &["", "of the second"]),
        line(11, Some("\u{FFFD}"), &[]),
    ];
    assert_eq!(text.lines, right);
    let letters: Vec<u8> = text.calls().map(|(_, record)| record.letter).collect();
    assert_eq!(letters, b"USS");
}

#[test]
fn the_introduction_ends_at_a_call_too() {
    let text = read(b"\n# The title\nU\n# of the second\nU\n");
    assert_eq!(text.introduction, ["The title"]);
    assert!(text.lines[0].heading.is_empty());
    assert_eq!(text.lines[1].heading, ["of the second"]);
    assert_eq!(read(b"# alone\n").introduction, ["alone"]);
}

#[test]
fn a_tab_in_a_comment_is_a_blank() {
    let text = read(b"U # user 0,\tthe office\n");
    assert_eq!(text.lines[0].comment.as_deref(), Some("user 0, the office"));
}

#[test]
fn long_comments_are_cut() {
    let comment = |length| format!("U # {}\n", "\u{E9}".repeat(length));
    let kept = |length| read(comment(length).as_bytes()).lines[0].comment.clone();
    assert_eq!(kept(4_096), Some("\u{E9}".repeat(4_096)));
    assert_eq!(kept(4_097), Some("\u{E9}".repeat(4_096) + "..."));
}

/// So that they take no more memory than the text.
#[test]
fn of_many_comments_the_first_are_kept() {
    let text = "U\n".to_string() + &"# x\n".repeat(65_535) + "U\n# y\n# z\nU\nU # behind\n";
    let text = read(text.as_bytes());
    assert_eq!(text.lines[1].heading.len(), 65_535);
    assert_eq!(text.lines[2].heading, ["(further comments are left out)"]);
    assert_eq!(text.lines[3].comment.as_deref(), Some("behind"));
    assert_eq!(text.journal.records().count(), 4);
}

#[test]
fn many_mistakes_are_counted() {
    let text = "Z\n".repeat(19) + "U\nS\nZ\nZ\nU\n";
    let mistakes = text::parse(text.as_bytes()).expect_err("mistakes");
    assert_eq!(mistakes.first.len(), 20);
    assert_eq!(mistakes.first[19].message, "S needs a user (field a) here");
    assert_eq!((mistakes.count, mistakes.right_calls), (22, 2));
}

#[test]
fn wrong_letters() {
    wrong("Z", 1, &no_letter("'Z'"));
    wrong("-> ok 1", 1, &no_letter("'->'"));
    wrong("B\x07 1", 1, &no_letter("'B\\u{7}'"));
    let long = format!("'{}...'", "x".repeat(24));
    wrong("x".repeat(1_000), 1, &no_letter(&long));
}

#[test]
fn missing_fields() {
    wrong("S", 2, "S needs a user (field a) here");
    for letter in ["E", "N", "K", "G", "T", "L", "D", "C", "R", "A"] {
        let needs = format!("{letter} needs a thread (field a) here");
        wrong(letter, 2, &needs);
    }
    wrong("\t C 0", 6, "C needs a segment (field b) here");
    wrong("C 0   # x", 4, "C needs a segment (field b) here");
    wrong("C 0 -> ok 0", 4, "C needs a segment (field b) here");
    wrong("D 0 ", 4, "D needs a lock (field b) here");
    wrong("G 0 1", 6, "G needs a key (field c) here");
    wrong("N 0", 4, "N needs a kind (field b) here: 0 code or 1 sheet");
    wrong(
        "A 0 1",
        6,
        "A needs an operation (field c) here: 2 read or 4 write",
    );
    wrong(
        "L 0 1 U0",
        7,
        "'U0' is no number: L needs operations (field c) here: \
         1 execute, 2 read, 4 write, their sum, and 8 more to deny",
    );
}

#[test]
fn wrong_numbers() {
    wrong(
        "D 0 x",
        5,
        "'x' is no number: D needs a lock (field b) here",
    );
    wrong(
        "S -1",
        3,
        "'-1' is no number: S needs a user (field a) here",
    );
    wrong(
        "S +1",
        3,
        "'+1' is no number: S needs a user (field a) here",
    );
    wrong(
        "S 0x1",
        3,
        "'0x1' is no number: S needs a user (field a) here",
    );
    wrong(
        "S \u{0663}",
        3,
        "'\u{0663}' is no number: S needs a user (field a) here",
    );
    wrong("S 65536", 3, "65536 is above 65535");
    wrong("S  70000", 4, "70000 is above 65535");
    wrong(
        "R 99999999999999999999999",
        3,
        "99999999999999999999999 is above 65535",
    );
    wrong("S 007", 3, "leading zero in 007");
    wrong("C 0 00", 5, "leading zero in 00");
}

#[test]
fn too_much() {
    wrong("U 0", 3, "U takes no more than its letter");
    wrong("R 0 0", 5, "R takes no more than one field");
    wrong("C 0 1 2 -> ok 0", 7, "C takes no more than two fields");
    wrong("A 0 1 2 U0", 9, "A takes no more than three fields");
    let blanks = "L takes no more than its text, and a formula has no blanks";
    wrong("L 0 0 1 S0 & S1", 12, blanks);
}

#[test]
fn wrong_lengths_of_texts() {
    wrong("L 0 0 1", 8, "L needs a text here, bare or in quotes");
    wrong("L 0 0 1 # U0", 8, "L needs a text here, bare or in quotes");
    wrong(
        "L 0 0 1 -> ok 0",
        8,
        "L needs a text here, bare or in quotes",
    );
    wrong("L 0 0 1 ->S1", 8, "L needs a text here, bare or in quotes");
    wrong("L 0 0 1 \"\"", 9, "a text has 1 to 96 bytes, this has 0");
    let long = "!".repeat(95) + "D0";
    wrong(
        format!("L 0 0 1 {long}"),
        9,
        "a text has 1 to 96 bytes, this has 97",
    );
    // Bytes, not characters.
    let long = format!("L 0 0 1  \"{}\"", "\u{9375}".repeat(33));
    wrong(long, 10, "a text has 1 to 96 bytes, this has 99");
}

/// A bare text is a formula, so that its slips are told with their places.
#[test]
fn wrong_formulas() {
    let no_formula = |wrong| format!("no formula: {wrong} (in quotes any text may stand)");
    let operand = no_formula("a key, '!' or '(' should stand there");
    let operator = no_formula("'&' or '|' should stand there");
    wrong("L 0 0 1 S0&|S1", 12, &operand);
    wrong("L 0 0 1 x0", 9, &operand);
    wrong("L 0 0 1 'S0&S1'", 9, &operand);
    wrong("L 0 0 1 S0S1", 11, &operator);
    wrong("L 0 0 1 S0\"", 11, &operator);
    wrong("L 0 0 1 S0\u{E9}", 11, &operator);
    wrong(b"L 0 0 1 S0\xFF", 11, &operator);
    let end = no_formula("a key, '!' or '(' is missing there");
    wrong("L 0 0 1 S0& -> ok 1", 12, &end);
    let zero = no_formula("a key's number has no leading zero");
    wrong("L 0 0 1 U0|D01", 12, &zero);
    let bracket = no_formula("a bracket isn't closed there");
    wrong("L 0 0 1 (S0|S1", 15, &bracket);
    let arrow = "a blank is missing before '->'";
    wrong("L 0 0 1 S0&S1-> ok 2", 14, arrow);
    wrong("L 0 0 1 S0&S1->ok", 14, arrow);
}

#[test]
fn wrong_quotes() {
    wrong("L 0 0 1 \"S0", 9, "the quote isn't closed");
    wrong("L 0 0 1 \"S0\\\"", 9, "the quote isn't closed");
    wrong("L 0 0 1 \"", 9, "the quote isn't closed");
    let after = "a blank is missing after the closing quote";
    wrong("L 0 0 1 \"a\"b", 12, after);
    wrong("L 0 0 1 \"a\"-> ok 1", 12, after);
    let escape = r#"no such escape: one of \" \\ \xHH, HH two hexadecimal digits"#;
    wrong(r#"L 0 0 1 "\n""#, 10, escape);
    wrong(r#"L 0 0 1 "a\x4""#, 11, escape);
    wrong(r#"L 0 0 1 "\xG0""#, 10, escape);
    wrong(r#"L 0 0 1 "\X41""#, 10, escape);
    wrong(r#"L 0 0 1 "\"#, 10, escape);
    // Columns are characters.
    wrong("L 0 0 1 \"\u{E9}\\q\"", 11, escape);
    let control = |hex| format!("a control character in the text: write \\x{hex}");
    wrong("L 0 0 1 \"a\x01\"", 11, &control("01"));
    wrong("L 0 0 1 \"a\tb\"", 11, &control("09"));
    wrong(b"L 0 0 1 \"a\xFF\"", 11, "no UTF-8 here: write \\xFF");
    wrong(b"L 0 0 1 \"a\xC3\"", 11, "no UTF-8 here: write \\xC3");
}

#[test]
fn wrong_expected_answers() {
    let answers = "an expected answer is 'ok N' or 'no N M'";
    wrong("U ->", 5, answers);
    wrong("U -> # ok 0", 5, answers);
    wrong("U -> yes 1", 6, answers);
    wrong("U -> OK 1", 6, answers);
    wrong("U -> ok", 8, answers);
    wrong("U -> ok x", 9, answers);
    wrong("U -> ok 1 2", 11, answers);
    wrong("U -> no 15 0 0", 14, answers);
    wrong("U -> ok 01", 9, "leading zero in 01");
    wrong("U -> no 15 70000", 12, "70000 is above 65535");
    wrong("U ->ok 0", 3, "a blank is missing after '->'");
}

#[test]
fn all_mistakes_are_found_and_no_others() {
    let text = b"\xEF\xBB\xBFZ\r\n# Z\r\nU\r\n  S\r\n\r\nN 0 1 # Z\r\nL 0 0 1 \"\r\nU";
    let right = [
        (1, 1, no_letter("'Z'")),
        (4, 4, "S needs a user (field a) here".to_string()),
        (7, 9, "the quote isn't closed".to_string()),
    ];
    assert_eq!(places(text), right);
}

#[test]
fn a_full_journal() {
    // 7 bytes, 7,279 times 9 and 9 + 8 are 65,535.
    let exact = "U\n".repeat(7_279) + "L 0 0 1 U0|U0|U0\n";
    let text = read(exact.as_bytes());
    assert_eq!(text.journal.as_bytes().len(), 65_535);
    assert_eq!(text.lines.len(), 7_280);
    // One byte more is too much. It is told once, and later mistakes still are.
    let more = "U\n".repeat(7_279) + "  L 0 0 1 U0|U0|U10\nU\nU\nZ\n";
    let full = "the journal is full here: 7,279 calls, and 65,535 bytes are the most (10)";
    let right = [(7_280, 3, full.to_string()), (7_283, 1, no_letter("'Z'"))];
    assert_eq!(places(more.as_bytes()), right);
}

#[test]
fn document_01s_first_trial_as_text() {
    let calls = b"U\nS 0\nS 0\nN 0 0\nN 0 0\nN 0 1\nL 0 0 1 U0\nL 0 1 1 U0\nL 0 2 4 S0&S1\n\
        C 0 0\nC 0 1\nC 1 1\nA 0 2 4\nA 1 2 4\nR 0\nA 0 2 4";
    let right = "\
U              # 0: a new user
S 0            # 1: user 0 starts a thread
S 0            # 2: user 0 starts a thread
N 0 0          # 3: thread 0 makes a code segment
N 0 0          # 4: thread 0 makes a code segment
N 0 1          # 5: thread 0 makes a sheet
L 0 0 1 U0     # 6: thread 0 locks segment 0: execute
L 0 1 1 U0     # 7: thread 0 locks segment 1: execute
L 0 2 4 S0&S1  # 8: thread 0 locks segment 2: write
C 0 0          # 9: thread 0 calls segment 0
C 0 1          # 10: thread 0 calls segment 1
C 1 1          # 11: thread 1 calls segment 1
A 0 2 4        # 12: thread 0 writes segment 2
A 1 2 4        # 13: thread 1 writes segment 2
R 0            # 14: thread 0 returns
A 0 2 4        # 15: thread 0 writes segment 2
";
    assert_eq!(text::disassemble(&read(calls).journal), right);
    let empty = "# a journal without records\n";
    assert_eq!(text::disassemble(&Journal::new()), empty);
}

#[test]
fn what_is_no_formula_is_quoted() {
    let line = |text| {
        text::call(&rotundaaloe::Record {
            letter: b'L',
            a: 1,
            b: 0,
            c: 65_535,
            text,
        })
    };
    assert_eq!(line(b"!(S0|D1)"), "L 1 0 65535 !(S0|D1)");
    assert_eq!(line(b"S0&"), "L 1 0 65535 \"S0&\"");
    assert_eq!(line(b"S0->S1"), "L 1 0 65535 \"S0->S1\"");
    assert_eq!(line(b"a b"), "L 1 0 65535 \"a b\"");
    assert_eq!(line(b"a#"), "L 1 0 65535 \"a#\"");
    assert_eq!(line(b"\"\\"), r#"L 1 0 65535 "\"\\""#);
    assert_eq!(
        line(b"\x00\t\xC3\xA9\x7F"),
        r#"L 1 0 65535 "\x00\x09\xC3\xA9\x7F""#
    );
}

#[test]
fn long_calls_leave_the_column_alone() {
    let long = "!".repeat(58) + "D0";
    let journal = read(format!("U\nL 0 2 4 {long}\n").as_bytes()).journal;
    let right =
        format!("U  # 0: a new user\nL 0 2 4 {long}  # 1: thread 0 locks segment 2: write\n");
    assert_eq!(text::disassemble(&journal), right);
}

/// A record of a shape that a journal takes.
fn random_record(random: &mut Random) -> Record {
    // Those with a text come more often.
    let letter = match random.one_in(4) {
        true => Letter::AddLock,
        false => random.pick(&Letter::ALL),
    };
    let text = match letter.has_text() {
        true => random_text(random),
        false => Vec::new(),
    };
    shaped(letter, text, || match random.below(3) {
        0 => random.pick(&[0, 1, 2, 4, 9, 10, 99, 100, 65_534, 65_535]),
        1 => random.below(20) as u16,
        _ => random.bits() as u16,
    })
}

fn random_text(random: &mut Random) -> Vec<u8> {
    let length = match random.below(3) {
        0 => random.between(1, 4),
        1 => 96,
        _ => random.between(1, 96),
    };
    let kind = random.below(4);
    let mut text: Vec<u8> = (0..length)
        .map(|_| match kind {
            0 => random.bits() as u8,
            1 => random.pick(b"USRD0123456789&|!()"),
            2 => random.pick(b"->\"\\# \tx041\r\n"),
            _ => random.pick("\u{E9}\u{9375}#\"\\".as_bytes()),
        })
        .collect();
    if random.one_in(8) && length >= 2 {
        text[..2].copy_from_slice(b"->");
    }
    text
}

/// The records as text and back are the file that the reference writes.
fn round_trip(records: &[Record]) {
    let file = journal::write(records);
    let journal = Journal::from_bytes(&file).expect("a readable file");
    let text = text::disassemble(&journal);
    let again = read(text.as_bytes());
    assert_eq!(again.journal.as_bytes(), file, "{text}");
    let comments = again.calls().enumerate().map(|(place, (line, record))| {
        let words = format!("{place}: {}", words::call(&record));
        assert_eq!(line.comment.as_ref(), Some(&words));
    });
    assert_eq!(comments.count(), records.len());
}

#[test]
fn random_journals_to_text_and_back() {
    let mut random = Random::new(1);
    for _ in 0..30_000 {
        let count = random.below(12);
        let records: Vec<Record> = (0..count).map(|_| random_record(&mut random)).collect();
        round_trip(&records);
    }
}

/// A text of right and wrong lines, some bytes of it changed.
fn random_lines(random: &mut Random) -> Vec<u8> {
    let mut text = Vec::new();
    for _ in 0..random.between(1, 6) {
        let record = random_record(random);
        let record = rotundaaloe::Record {
            letter: record.letter,
            a: record.a,
            b: record.b,
            c: record.c,
            text: &record.text,
        };
        text.extend(text::call(&record).into_bytes());
        text.extend(random.pick(&[&b"\n"[..], b"\r\n", b" -> ok 1\n", b" # \xFF\n"]));
    }
    for _ in 0..random.below(4) {
        let place = random.below(text.len());
        text[place] = match random.below(2) {
            0 => random.bits() as u8,
            _ => random.pick(b"\"\\#->\n\t 0"),
        };
    }
    text
}

#[test]
fn mistakes_of_random_texts_are_in_their_lines() {
    let mut random = Random::new(4);
    let (mut right, mut wrong) = (0, 0);
    for _ in 0..20_000 {
        let text = random_lines(&mut random);
        let Err(mistakes) = text::parse(&text) else {
            right += 1;
            continue;
        };
        wrong += 1;
        let lines: Vec<&[u8]> = text::lines(&text).collect();
        let first = mistakes.first;
        assert!(first.is_sorted_by(|one, next| one.line < next.line));
        for mistake in first {
            let line = String::from_utf8_lossy(lines[mistake.line - 1]);
            let most = line.chars().count() + 1;
            assert!((1..=most).contains(&mistake.column), "{mistake:?}: {line}");
        }
    }
    assert!(right > 2_000 && wrong > 2_000, "{right} and {wrong}");
}

/// A line is right or wrong whatever the other lines are.
#[test]
fn each_line_is_judged_alone() {
    let mut random = Random::new(5);
    for _ in 0..2_000 {
        let text = random_lines(&mut random);
        let mistakes = text::parse(&text).err().unwrap_or_default();
        for (place, line) in text::lines(&text).enumerate() {
            let alone = text::parse(line).err().unwrap_or_default();
            let alone = alone.first.into_iter().map(|m| (m.column, m.message));
            let among = mistakes.first.iter().filter(|m| m.line == place + 1);
            let among = among.map(|m| (m.column, m.message.clone()));
            assert!(alone.eq(among), "{}", line.escape_ascii());
        }
    }
}

#[test]
fn every_byte_alone_to_text_and_back() {
    for byte in 0..=255 {
        round_trip(&[lock(&[byte]), lock(&[b'-', byte]), lock(&[byte, b'>'])]);
    }
}

fn lock(text: &[u8]) -> Record {
    testing::calls::lock(0, 0, 1, text)
}

#[test]
fn full_journals_to_text_and_back() {
    let mut random = Random::new(2);
    let mut records = Vec::new();
    let mut left = 65_535 - 7;
    // A lock has 10 to 105 bytes, so two of them take up the rest.
    while left >= 210 {
        let record = random_record(&mut random);
        left -= record.size();
        records.push(record);
    }
    let first = (left - 19).min(96);
    records.push(lock(&vec![b' '; first]));
    records.push(lock(&vec![b'"'; left - 9 - first - 9]));
    assert_eq!(journal::write(&records).len(), 65_535);
    round_trip(&records);
    let shortest = vec![testing::calls::call(b'U', 0, 0, 0); 7_280];
    round_trip(&shortest);
}

#[test]
fn lists_of_calls_to_text_and_back() {
    let mut random = Random::new(3);
    for world in &WORLDS {
        let mut guard = Guard::new();
        let mut caller = Caller::new(&mut random, world);
        let mut records = Vec::new();
        for _ in 0..caller.length() {
            let record = caller.next_call();
            let answer = guard.call(rotundaaloe::Record {
                letter: record.letter,
                a: record.a,
                b: record.b,
                c: record.c,
                text: &record.text,
            });
            if let Ok(answer) = answer {
                caller.learn(&record, answer);
            }
            if journal::fits(&record) {
                records.push(record);
            }
        }
        round_trip(&records);
    }
}
