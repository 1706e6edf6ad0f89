//! `keylock state`: what it shows of a state file, and what it refuses.

#[expect(dead_code, reason = "other tests use the rest")]
mod commands;

use commands::{Directory, Ran, keylock};
use rotundaaloe::raw::Cells;
use rotundaaloe::{Defined, Guard, Journal, Kind, Lock, Operations, Segment, User};
use std::fs;

/// Two users with three segments, three threads, one of them ended, and five
/// locks, one of them dropped.
fn office() -> Guard {
    let mut guard = Guard::new();
    let [owner, other] = [(); 2].map(|()| guard.new_user().unwrap());
    let [first, sheet, second] = [0, 1, 2].map(Segment);
    let [owners, others, ended] =
        [owner, other, owner].map(|user| guard.start_thread(user).unwrap());
    for (thread, kind) in [
        (owners, Kind::Code),
        (others, Kind::Sheet),
        (ended, Kind::Code),
    ] {
        guard.new_segment(thread, kind).unwrap();
    }
    for (thread, segment, key) in [(owners, first, 0), (others, sheet, 1)] {
        assert_eq!(guard.new_key(thread), Ok(Defined(key)));
        guard.give_key(thread, segment, Defined(key)).unwrap();
    }
    guard.end_thread(ended).unwrap();
    let both = Operations::READ.and(Operations::WRITE);
    for (thread, segment, operations, text) in [
        (owners, first, Operations::EXECUTE, "U0"),
        (owners, second, Operations::EXECUTE, "(U0|U1)"),
        (others, sheet, Operations::WRITE, "S0&S2|!D0"),
        (others, sheet, both.denied(), "R2"),
        (others, sheet, Operations::READ, "U1"),
    ] {
        guard.add_lock(thread, segment, operations, text).unwrap();
    }
    guard.drop_lock(others, Lock(4)).unwrap();
    guard.call_segment(owners, first).unwrap();
    guard.call_segment(owners, second).unwrap();
    assert_eq!(guard.threads()[1].user, User(1));
    guard
}

const OFFICE: &str = "\
2 live threads
  thread  user  open calls, newest first  keys
  0       0     2 0                       U0 R0 S0 S2 D0
  1       1     -                         U1 R1

3 segments
  segment  kind   owner  key list
  0        code   0      S0 D0
  1        sheet  1      S1 D1
  2        code   0      S2

4 standing locks
  lock  segment  effect  operations      formula
  0     0        grant   execute         U0
  1     2        grant   execute         U0 | U1
  2     1        grant   write           S0&S2 | !D0
  3     1        deny    read and write  R2

left to hand out
  users  threads  segments  keys   locks
  30     65,533   61        1,022  65,531
";

const EMPTY: &str = "\
no live threads

no segments

no standing locks

left to hand out
  users  threads  segments  keys   locks
  32     65,536   64        1,024  65,536
";

#[track_caller]
fn fine(ran: &Ran, printed: &str) {
    assert_eq!(ran.complaint, "");
    assert_eq!(ran.printed(), printed);
    assert_eq!(ran.status, 0);
}

#[track_caller]
fn refused(bytes: &[u8], why: &str) {
    let ran = keylock(&["state"], bytes);
    assert_eq!(ran.complaint, format!("keylock: standard input: {why}\n"));
    assert_eq!(ran.printed(), "");
    assert_eq!(ran.status, 1);
}

#[test]
fn what_stands_in_a_state_file() {
    let directory = Directory::new("state");
    let [file, out] = ["office.kls", "out"].map(|name| directory.file(name));
    office().save(&file).unwrap();
    fine(&keylock(&["state", &file], b""), OFFICE);
    fine(&keylock(&["state"], &office().to_bytes()), OFFICE);
    fine(&keylock(&["state", "-"], &Guard::new().to_bytes()), EMPTY);
    fine(&keylock(&["state", &file, "-o", &out], b""), "");
    assert_eq!(fs::read_to_string(&out).unwrap(), OFFICE);
    assert_eq!(directory.names(), ["office.kls", "out"]);
}

#[test]
fn files_that_are_refused() {
    let state = office().to_bytes();
    refused(b"", "not a state file (16): it has no bytes");
    let journal = "it is a journal, which 'keylock trace' explains";
    refused(
        Journal::new().as_bytes(),
        &format!("not a state file (16): {journal}"),
    );
    let mark = "not a state file (16): it doesn't begin with KLS and a line feed";
    refused(b"KLS", mark);
    refused(b"U\n", mark);
    let with = |place: usize, byte: u8| {
        let mut state = state.clone();
        state[place] = byte;
        state
    };
    refused(&with(4, 2), "another layout (17): it is of another version");
    let cut = "broken state file (18): cut short, 37,933 of 37,934 bytes";
    refused(&state[..state.len() - 1], cut);
    refused(
        b"KLS\n",
        "broken state file (18): cut short, 4 of 37,934 bytes",
    );
    let longer = "broken state file (18): it goes on after 37,934 bytes";
    refused(&[&state[..], b"\n"].concat(), longer);
    let changed = "broken state file (18): some of its bytes have changed";
    refused(&with(30_000, 1), changed);
    refused(&with(6, 0), changed);
}

#[test]
fn files_that_cannot_be_read() {
    let directory = Directory::new("unread-state");
    let missing = directory.file("missing");
    let ran = keylock(&["state", &missing], b"");
    let right = format!("keylock: {missing}: No such file or directory\n");
    assert_eq!((ran.complaint, ran.status), (right, 2));
    assert_eq!(
        keylock(&["state", directory.path().to_str().unwrap()], b"").status,
        2
    );
    // Without end.
    assert_eq!(keylock(&["state", "/dev/zero"], b"").status, 1);
}

#[test]
fn the_state_file_is_not_written_over() {
    let directory = Directory::new("over-state");
    let file = directory.file("office.kls");
    office().save(&file).unwrap();
    let ran = keylock(&["state", &file, "-o", &file], b"");
    let right = format!("keylock: {file} is the input: write to another file\n");
    assert_eq!((ran.complaint, ran.status), (right, 2));
    assert!(Guard::load(&file).unwrap() == office());
}

/// Any numbers are some state, and are shown.
#[test]
fn any_numbers() {
    for number in [1, 2, 15, 16, 17, 63, 64, 0x7FFF, 0x8000, 0xFFFF] {
        let large = u32::from(number) << 16 | u32::from(number);
        let cells = Box::new(Cells {
            registry: [large; 8],
            makers: [number; 1_024],
            segments: [[[number; 8]; 2]; 64],
            locks: [[[large; 8]; 8]; 64],
            threads: [[[number; 8]; 17]; 64],
        });
        let ran = keylock(&["state"], &Guard::from_cells(cells).to_bytes());
        assert_eq!((ran.complaint.as_str(), ran.status), ("", 0), "{number}");
        assert!(ran.printed().starts_with("64 live threads\n"), "{number}");
        assert!(ran.printed().contains("\n64 segments\n"), "{number}");
    }
}

#[test]
fn help_tells_of_it() {
    let general = keylock(&["--help"], b"").printed();
    assert!(general.contains("\n  state  what stands in a state file\n"));
    let help = keylock(&["state", "--help"], b"").printed();
    assert!(help.starts_with("Usage: keylock state [FILE] [-o OUT]\n"));
    assert_eq!(keylock(&["help", "state"], b"").printed(), help);
}
