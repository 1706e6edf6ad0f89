//! The command as it is run: what it writes where, and its exit status.

mod commands;
#[path = "commands/files.rs"]
mod files;
#[path = "commands/long.rs"]
mod long;
#[path = "commands/streams.rs"]
mod streams;

use commands::{Directory, OFFICE_LINES, ONE_USER, TRIAL, fine, keylock, refused};
use rotundaaloe::Letter;
use std::ffi::OsStr;
use std::fs::{self, File};
use std::os::unix::ffi::OsStrExt;
use std::process::Command;

#[test]
fn asm_and_dis_through_pipes() {
    let ran = keylock(&["asm"], b"U");
    assert_eq!((ran.output.as_slice(), ran.status), (ONE_USER, 0));
    fine(&keylock(&["dis"], ONE_USER), "U  # 0: a new user\n");
    fine(
        &keylock(&["dis", "-", "-o", "-"], ONE_USER),
        "U  # 0: a new user\n",
    );
    let ran = keylock(&["asm", "-"], TRIAL.as_bytes());
    let text = keylock(&["dis"], &ran.output);
    assert_eq!(keylock(&["asm"], &text.output).output, ran.output);
}

#[test]
fn asm_and_dis_to_files() {
    let directory = Directory::new("files");
    let [text, out] = ["a.txt", "a.kld"].map(|name| directory.file(name));
    fs::write(&text, "U").unwrap();
    for option in [&["-o", &out][..], &["--output", &out]] {
        let ran = keylock(&[&["asm", text.as_str()], option].concat(), b"");
        fine(&ran, "");
        assert_eq!(fs::read(&out).unwrap(), ONE_USER);
        fs::remove_file(&out).unwrap();
    }
    for option in [format!("-o{out}"), format!("--output={out}")] {
        fine(&keylock(&["asm", &option, &text], b""), "");
        assert_eq!(fs::read(&out).unwrap(), ONE_USER);
        fs::write(&out, "an old one, and longer than the new").unwrap();
    }
    fine(&keylock(&["asm", &text, "-o", &out], b""), "");
    assert_eq!(fs::read(&out).unwrap(), ONE_USER);
    fine(&keylock(&["dis", &out, "-o", &text], b""), "");
    assert_eq!(fs::read_to_string(&text).unwrap(), "U  # 0: a new user\n");
    assert_eq!(directory.names(), ["a.kld", "a.txt"]);
}

#[test]
fn run_prints_what_the_office_program_prints() {
    fine(&keylock(&["run"], TRIAL.as_bytes()), OFFICE_LINES);
    let file = keylock(&["asm"], TRIAL.as_bytes()).output;
    fine(&keylock(&["run"], &file), OFFICE_LINES);
    fine(&keylock(&["run", "-"], &file), OFFICE_LINES);
    fine(&keylock(&["run"], b"KLD\x02\0\0\0"), "");
    fine(&keylock(&["run"], b"# nothing\n"), "");
    fine(
        &keylock(&["run"], b"S 0\nR 0\n"),
        "0 S no 1 0\n1 R no 2 0\n",
    );
}

#[test]
fn run_takes_several_files() {
    let directory = Directory::new("several");
    let [text, file, bad] = ["a.txt", "b", "bad"].map(|name| directory.file(name));
    fs::write(&text, "U -> ok 1\nS 0").unwrap();
    fs::write(&file, ONE_USER).unwrap();
    fs::write(&bad, "U\nZ").unwrap();
    let ran = keylock(&["run", &file, &text, "-"], b"R 0");
    let right = format!(
        "== {file} ==\n0 U ok 0\n== {text} ==\n0 U ok 0\n1 S ok 0\n\
         == standard input ==\n0 R no 2 0\n"
    );
    assert_eq!(ran.printed(), right);
    let right = format!(
        "{text}:1: expected ok 1, the guard answers ok 0\n\
         {text}: 1 expected answer, not given\n"
    );
    assert_eq!((ran.complaint.as_str(), ran.status), (right.as_str(), 1));
    // One at fault, and nothing is run.
    let ran = keylock(&["run", &file, &bad], b"");
    assert_eq!((ran.printed().as_str(), ran.status), ("", 1));
    assert!(ran.complaint.starts_with(&format!("keylock: {bad}:2:1: ")));
    let ran = keylock(&["run", &bad, "/no/such/file"], b"");
    assert_eq!((ran.printed().as_str(), ran.status), ("", 2));
    let ran = keylock(&["run", "-", "-"], b"U");
    assert_eq!((ran.printed().as_str(), ran.status), ("", 2));
}

#[test]
fn expected_answers() {
    let ran = keylock(&["run"], b"U -> ok 0\nS 0 -> ok 0\nC 0 0 -> no 3 0\n");
    assert_eq!(ran.printed(), "0 U ok 0\n1 S ok 0\n2 C no 3 0\n");
    let right = "standard input: 3 expected answers, all given\n";
    assert_eq!((ran.complaint.as_str(), ran.status), (right, 0));

    let ran = keylock(
        &["run"],
        b"\nU\n\nS 1 -> ok 0\nR 0 -> no 2 1\nE 0 -> no 2 0",
    );
    assert_eq!(
        ran.printed(),
        "0 U ok 0\n1 S no 1 0\n2 R no 2 0\n3 E no 2 0\n"
    );
    let right = "standard input:4: expected ok 0, the guard answers no 1 0\n\
        standard input:5: expected no 2 1, the guard answers no 2 0\n\
        standard input: 3 expected answers, 2 not given\n";
    assert_eq!((ran.complaint.as_str(), ran.status), (right, 1));
}

#[test]
fn trace_explains_both_forms() {
    let text = keylock(&["trace"], TRIAL.as_bytes());
    assert_eq!((text.status, text.complaint.as_str()), (0, ""));
    let shut = "S0 & S1: shut. S0 is missing: segment 0 hands it over, \
                and this thread has no open call of it";
    assert!(text.printed().contains(shut), "{}", text.printed());
    let journal = keylock(&["asm"], TRIAL.as_bytes()).output;
    fine(&keylock(&["trace"], &journal), &text.printed());
}

#[test]
fn trace_writes_a_page() {
    let directory = Directory::new("page");
    let [text, page] = ["my lesson.txt", "page.html"].map(|name| directory.file(name));
    fs::write(&text, format!("# Two users & a route\n\n{TRIAL}")).unwrap();
    fine(&keylock(&["trace", "--html", &text, "-o", &page], b""), "");
    let written = fs::read_to_string(&page).unwrap();
    assert!(written.starts_with("<!DOCTYPE html>"));
    assert!(written.contains("<title>Two users &amp; a route</title>"));
    assert!(written.contains("<p>Two users &amp; a route</p>"));
    assert!(written.contains("S0 is missing: segment\u{a0}0 hands it over"));
    fine(&keylock(&["trace", &text, "--html"], b""), &written);
}

#[test]
fn trace_tells_of_answers_that_are_not_expected() {
    let ran = keylock(&["trace"], b"U -> ok 0\nU -> ok 7\n");
    let complaint = "standard input:2: expected ok 7, the guard answers ok 1\n\
                     standard input: 2 expected answers, 1 not given\n";
    assert_eq!((ran.status, ran.complaint.as_str()), (1, complaint));
    assert!(ran.printed().contains("WRONG   expected ok 7"));
    let ran = keylock(&["trace", "--html"], b"U -> ok 7\n");
    let complaint = "standard input:1: expected ok 7, the guard answers ok 0\n\
                     standard input: 1 expected answer, not given\n";
    assert_eq!((ran.status, ran.complaint.as_str()), (1, complaint));
    assert!(
        ran.printed()
            .contains("Expected ok 7, but the answer is ok 0")
    );
}

#[test]
fn mistakes_are_shown_and_nothing_is_written() {
    let directory = Directory::new("mistakes");
    let [text, out] = ["a.txt", "out"].map(|name| directory.file(name));
    fs::write(&text, "U\nC 0\nN\t007 1\n").unwrap();
    fs::write(&out, "old").unwrap();
    let right = format!(
        "keylock: {text}:2:4: C needs a segment (field b) here\n  C 0\n     ^\n\
         keylock: {text}:3:3: leading zero in 007\n  N 007 1\n    ^\n\
         2 mistakes; nothing was written\n"
    );
    refused(&keylock(&["asm", &text, "-o", &out], b""), 1, &right);
    refused(&keylock(&["asm", &text], b""), 1, &right);
    refused(&keylock(&["run", &text], b""), 1, &right);
    refused(&keylock(&["trace", &text, "-o", &out], b""), 1, &right);
    assert_eq!(fs::read(&out).unwrap(), b"old");
    assert_eq!(directory.names(), ["a.txt", "out"]);

    let right = "keylock: standard input:1:2: S needs a user (field a) here\n  S\n   ^\n\
                 1 mistake; nothing was written\n";
    refused(&keylock(&["asm", "-o", &out], b"S"), 1, right);
    assert_eq!(fs::read(&out).unwrap(), b"old");
}

#[test]
fn many_mistakes_are_cut() {
    let ran = keylock(&["asm"], &b"Z\n".repeat(25));
    assert_eq!(ran.complaint.matches("is no call's letter").count(), 20);
    let end = "\nand 5 more\n25 mistakes; nothing was written\n";
    assert!(ran.complaint.ends_with(end));
    let ran = keylock(&["asm"], &b"Z\n".repeat(20));
    assert_eq!(ran.complaint.matches("is no call's letter").count(), 20);
    assert!(!ran.complaint.contains("more"));
}

#[test]
fn refused_files() {
    let file = [&ONE_USER[..10], b"\x05", &ONE_USER[11..]].concat();
    let right = "keylock: standard input: byte 10, record 0: \
        field b is 5, but U has none (18 broken file)\n";
    for command in ["dis", "run", "trace"] {
        refused(&keylock(&[command], &file), 1, right);
    }
    let changed = "keylock: standard input: byte 3: a journal of version 1, whose edits \
        (N, K, G, T, L, D) name a user; in version 2 they name a thread. The keylock that it was \
        kept with reads it (17 other version)\n";
    let right = "keylock: standard input: byte 3: \
        version 3, only version 2 is known (17 other version)\n";
    for command in ["dis", "run", "trace"] {
        refused(&keylock(&[command], b"KLD\x01\0\0\0"), 1, changed);
        refused(&keylock(&[command], b"KLD\x03\0\0\0"), 1, right);
    }
}

#[test]
fn no_bytes() {
    let right = "keylock: standard input: no bytes: not a journal (16)\n";
    for command in ["dis", "run", "trace"] {
        refused(&keylock(&[command], b""), 1, right);
    }
    assert_eq!(keylock(&["asm"], b"").output, b"KLD\x02\0\0\0");
}

#[test]
fn the_wrong_form() {
    let right = "keylock: standard input: byte 0: no mark: \
        a journal begins with KLD (16 not a desk file)\n";
    refused(&keylock(&["dis"], b"Zebra\n"), 1, right);
    let hint = "It is a text journal already: 'keylock asm' makes it a journal.\n";
    refused(&keylock(&["dis"], b"U\n"), 1, &format!("{right}{hint}"));
    let right = "keylock: standard input: no text, it begins with KLD: \
        'keylock dis' makes a journal a text\n";
    refused(&keylock(&["asm"], ONE_USER), 1, right);
    let neither = "keylock: standard input: neither a journal (16: no mark KLD) \
        nor a text journal";
    for command in ["run", "trace"] {
        let right = format!("{neither}: line 1, column 1 is no call\n");
        refused(&keylock(&[command], b"\x89PNG\r\n\x1A\n\0\0"), 1, &right);
        let ran = keylock(&[command], b"Dear reader,\nhello.\n");
        let right = format!("{neither}; as a text:\nkeylock: standard input:1:1: 'Dear' is no");
        assert!(ran.complaint.starts_with(&right), "{}", ran.complaint);
        assert_eq!((ran.printed().as_str(), ran.status), ("", 1));
    }
    let right = format!("{neither}: it is UTF-16, save it as UTF-8\n");
    refused(&keylock(&["asm"], b"\xFF\xFEU\0\r\0\n\0"), 1, &right);
    let right = format!("{neither}: line 1, column 4 is a NUL byte: no text has one\n");
    refused(&keylock(&["asm"], b"S 0\0\n"), 1, &right);
    let state = "a state file, which 'keylock state' shows";
    let right = format!("{neither}: it is {state}\n");
    let saved = rotundaaloe::Guard::new().to_bytes();
    refused(&keylock(&["run"], &saved), 1, &right);
    let right = format!("keylock: standard input: byte 2: {state} (16 not a desk file)\n");
    refused(&keylock(&["dis"], &saved), 1, &right);
    let endless = File::open("/dev/zero").unwrap();
    let ran = commands::run(
        Command::new(env!("CARGO_BIN_EXE_keylock"))
            .arg("run")
            .stdin(endless),
    );
    let right = "keylock: standard input: over 8 MiB: no journal, nor the text of one\n";
    refused(&ran, 1, right);
}

/// A control character hides no mistake of a text that has calls.
#[test]
fn a_form_feed_in_a_text() {
    let ran = keylock(&["asm"], b"U\n# page\x0Ctwo\nL 0 0 1 S0 AND S1\n");
    let right = "keylock: standard input:3:12: AND is written '&', and a formula has no blanks\n  \
        L 0 0 1 S0 AND S1\n             ^\n1 mistake; nothing was written\n";
    refused(&ran, 1, right);
    let ran = keylock(&["asm"], b"U\nN\x000 0\nS 0 ok 0\n");
    let right = "keylock: standard input:2:2: a NUL byte: no text has one\n";
    assert!(ran.complaint.starts_with(right), "{}", ran.complaint);
}

#[test]
fn help_and_version() {
    let mut seen = Vec::new();
    for arguments in [
        &["--help"][..],
        &["asm", "--help"],
        &["dis", "-h"],
        &["run", "-h"],
        &["locks", "--rows", "1", "-h"],
        &["key", "x", "-h"],
        &["state", "-h"],
    ] {
        seen.push(keylock(arguments, b""));
    }
    seen.push(keylock(&["trace", "x", "--help", "--nonsense"], b""));
    let usages = [
        "SUBCOMMAND",
        "asm",
        "dis",
        "run",
        "locks",
        "key",
        "state",
        "trace",
    ];
    for (ran, usage) in seen.iter().zip(usages) {
        fine(ran, &ran.printed());
        let printed = ran.printed();
        assert!(printed.starts_with(&format!("Usage: keylock {usage} ")));
        for part in ["Options:", "--help", "Exit status:", "Example:"] {
            assert!(printed.contains(part), "{usage}: {part}");
        }
        assert!(printed.lines().all(|line| line.len() <= 80), "{usage}");
    }
    fine(&keylock(&["help", "dis"], b""), &seen[2].printed());
    fine(&keylock(&["help"], b""), &seen[0].printed());
    for arguments in [&["--version"][..], &["-V"], &["run", "--version"]] {
        fine(&keylock(arguments, b""), "keylock 0.2.0\n");
    }
}

/// The refusals in `keylock run --help` are those of document 01's table, in
/// `keylock locks --help` those of a lock list, and in `keylock key --help` that of
/// a key search.
#[test]
fn the_help_names_the_refusals() {
    let help = keylock(&["run", "--help"], b"").printed();
    for refusal in [
        "1 stranger",
        "2 no run",
        "3 no segment",
        "4 no key",
        "5 no lock",
        "6 not yours",
        "7 unfit",
        "8 already in",
        "9 not there",
        "10 full",
        "11 misspelt",
        "12 too wide",
        "13 void",
        "14 barred",
        "15 no way in",
    ] {
        assert!(help.contains(&format!(" {refusal}")), "{refusal}");
    }
    for (topic, refusals) in [
        ("locks", "1 stranger, 3 no segment, 19 too few rows"),
        ("key", "2 no run"),
    ] {
        let help = keylock(&[topic, "--help"], b"").printed();
        let help = help.replace('\n', " ");
        assert!(
            help.contains(&format!("after 'no': {refusals}. ")),
            "{topic}"
        );
    }
}

/// Every subcommand stands in the help of the command, and in what it asks who
/// names none.
#[test]
fn the_subcommands_are_listed() {
    let help = keylock(&["--help"], b"").printed();
    let listed = help
        .lines()
        .skip_while(|line| *line != "Subcommands:")
        .skip(1)
        .take_while(|line| !line.is_empty());
    let listed: Vec<&str> = listed
        .filter_map(|line| line.split_whitespace().next())
        .collect();
    let all = ["asm", "dis", "run", "trace", "locks", "key", "state"];
    assert_eq!(listed, all);
    for name in all {
        let help = keylock(&[name, "--help"], b"").printed();
        assert!(
            help.starts_with(&format!("Usage: keylock {name} ")),
            "{name}"
        );
    }
}

/// The calls in `keylock asm --help` have the fields that they need.
#[test]
fn the_help_is_right() {
    let help = keylock(&["asm", "--help"], b"").printed();
    let call = |line: &str| {
        let (letter, names) = line.strip_prefix("  ")?.split_once(' ')?;
        let names = names.split("  ").next()?.split(' ');
        let names = names.filter(|name| name.starts_with(char::is_uppercase));
        let value = |name| if name == "FORMULA" { " U1" } else { " 1" };
        let call = format!("{letter}{}\n", names.map(value).collect::<String>());
        (letter.len() == 1 && !["A\n", "#\n"].contains(&call.as_str())).then_some(call)
    };
    let text: String = help.lines().filter_map(call).collect();
    let printed = keylock(&["run"], text.as_bytes()).printed();
    let letters = printed.lines().filter_map(|line| line.split(' ').nth(1));
    let all = Letter::ALL.map(Letter::char);
    assert_eq!(letters.collect::<String>(), all.iter().collect::<String>());
}

#[test]
fn called_wrongly() {
    let see = |topic: &str| format!("See 'keylock{topic} --help'.\n");
    let wrong = |arguments: &[&str], topic: &str, message: &str| {
        let right = format!("keylock: {message}\n{}", see(topic));
        refused(&keylock(arguments, b"U"), 2, &right);
    };
    let all = "what to do? asm, dis, run, trace, locks, key or state";
    wrong(&[], "", all);
    wrong(
        &["asn"],
        "",
        "no subcommand is called 'asn'; is 'asm' meant?",
    );
    wrong(
        &["Trace"],
        "",
        "no subcommand is called 'Trace'; is 'trace' meant?",
    );
    wrong(
        &["rnu"],
        "",
        "no subcommand is called 'rnu'; is 'run' meant?",
    );
    wrong(
        &["lock"],
        "",
        "no subcommand is called 'lock'; is 'locks' meant?",
    );
    wrong(
        &["keys"],
        "",
        "no subcommand is called 'keys'; is 'key' meant?",
    );
    wrong(
        &["help", "kye"],
        "",
        "no subcommand is called 'kye'; is 'key' meant?",
    );
    // As many letters would change as they have.
    wrong(&["k"], "", "no subcommand is called 'k'");
    wrong(&["sy"], "", "no subcommand is called 'sy'");
    wrong(&["frobnicate"], "", "no subcommand is called 'frobnicate'");
    wrong(&["help", "me"], "", "no subcommand is called 'me'");
    wrong(&["--frob"], "", "unknown option '--frob'");
    wrong(&["asm", "--frob"], " asm", "unknown option '--frob'");
    wrong(&["asm", "-x"], " asm", "unknown option '-x'");
    wrong(&["dis", "--html"], " dis", "unknown option '--html'");
    wrong(&["run", "-o", "x"], " run", "unknown option '-o'");
    wrong(&["asm", "-o"], " asm", "-o needs the name of a file");
    wrong(&["asm", "--output="], " asm", "-o needs the name of a file");
    wrong(&["asm", "-o-", "-o-"], " asm", "-o is given twice");
    wrong(
        &["dis", "a", "b"],
        " dis",
        "dis takes one file, 'b' is one more",
    );
}

#[test]
fn names_of_any_kind() {
    let directory = Directory::new("names");
    let odd = [
        OsStr::new("-o"),
        OsStr::from_bytes(b"\xFF\n\x1B"),
        OsStr::new("--"),
    ];
    for name in odd {
        fs::write(directory.path().join(name), "U\n").unwrap();
        let mut command = Command::new(env!("CARGO_BIN_EXE_keylock"));
        command.current_dir(directory.path());
        fine(
            &commands::run(command.args(["run", "--"]).arg(name)),
            "0 U ok 0\n",
        );
        fs::write(directory.path().join(name), "Z\n").unwrap();
        let ran = commands::run(&mut command);
        let shown = name
            .to_string_lossy()
            .replace('\n', "\\n")
            .replace('\x1B', "\\u{1b}");
        let start = format!("keylock: {shown}:1:1: ");
        assert!(ran.complaint.starts_with(&start), "{}", ran.complaint);
    }
    let mut command = Command::new(env!("CARGO_BIN_EXE_keylock"));
    command.current_dir(directory.path()).arg("asm");
    let out = OsStr::from_bytes(b"-oout\xFE");
    fs::write(directory.path().join("in"), "U").unwrap();
    fine(&commands::run(command.arg(out).arg("in")), "");
    let out = directory.path().join(OsStr::from_bytes(b"out\xFE"));
    assert_eq!(fs::read(out).unwrap(), ONE_USER);
}
