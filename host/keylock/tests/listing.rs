//! Lock lists in the explanation of a journal, written down by hand from document
//! 02, P1.

#[expect(dead_code, reason = "other tests use the rest")]
mod lesson;

use keylock::listing;
use keylock::steps::Step;
use keylock::trace;
use lesson::explained;
use rotundaaloe::LockRow;

/// A sheet with two locks, the first of which has two products and is dropped.
/// Until the second U there is nobody but the owner.
const CALLS: &str = "U; S 0; N 0 1; N 0 0; L 0 0 2 S1&!U0|S0; L 0 0 12 U0; D 0 0; \
                     U; S 1; L 1 0 2 U1; N 1 1";

/// What the owner and what a colleague sees after a step of the segment that it
/// changes or asks for.
fn lists(step: &Step) -> [Vec<String>; 2] {
    let segment = step.segment.as_ref().or(step.asked.as_ref());
    let lists = &segment.expect("a segment").lists;
    let lines = |rows: &[LockRow]| rows.iter().map(listing::line).collect();
    [lines(&lists.owners), lines(&lists.colleagues)]
}

#[test]
fn the_lists_after_each_call() {
    let steps = explained(CALLS);
    let none: [&[&str]; 2] = [&[], &[]];
    let both: [&[&str]; 2] = [
        &["0 2 grant !U0 S1", "0 2 grant S0", "1 4 deny U0"],
        &["0 2 grant", "1 4 deny"],
    ];
    let second: [&[&str]; 2] = [&["1 4 deny U0"], &["1 4 deny"]];
    assert_eq!(lists(&steps[2]), none);
    assert_eq!(lists(&steps[3]), none);
    assert_eq!(lists(&steps[5]), both);
    assert_eq!(lists(&steps[6]), second);
    // The colleague who was only thought of took no number.
    assert_eq!(steps[7].given().to_string(), "ok 1");
    // The other owns another sheet, and this lock is refused.
    assert_eq!(steps[9].given().to_string(), "no 6 0");
    assert_eq!(lists(&steps[9]), second);
    assert_eq!(lists(&steps[10]), none);
}

/// Accesses and calls, whatever they are answered, show the lists of that moment.
#[test]
fn the_lists_at_accesses() {
    let calls = "U; S 0; N 0 1; N 0 0; L 0 0 2 S1&!U0|S0; A 0 0 2; L 0 0 12 U0; A 0 0 4; \
                 D 0 0; A 9 0 2; L 0 1 1 U0; C 0 1; A 0 1 2; A 0 7 2; R 0; E 0";
    let steps = explained(calls);
    let first: [&[&str]; 2] = [&["0 2 grant !U0 S1", "0 2 grant S0"], &["0 2 grant"]];
    let both: [&[&str]; 2] = [
        &["0 2 grant !U0 S1", "0 2 grant S0", "1 4 deny U0"],
        &["0 2 grant", "1 4 deny"],
    ];
    let second: [&[&str]; 2] = [&["1 4 deny U0"], &["1 4 deny"]];
    let codes: [&[&str]; 2] = [&["2 1 grant U0"], &["2 1 grant"]];
    for (place, answer, right) in [
        (5, "no 15 0", first),
        (7, "no 14 1", both),
        (9, "no 2 0", second),
        (11, "ok 2", codes),
        (12, "no 7 0", codes),
    ] {
        assert_eq!(steps[place].given().to_string(), answer, "{place}");
        assert_eq!(lists(&steps[place]), right, "{place}");
    }
    // A segment that isn't handed out, and calls that ask for none.
    for (place, answer) in [(13, "no 3 0"), (14, "ok 1"), (15, "ok 0"), (1, "ok 0")] {
        assert_eq!(steps[place].given().to_string(), answer, "{place}");
        assert!(steps[place].asked.is_none(), "{place}");
    }
}

/// The owner needn't be the first user.
#[test]
fn another_owner() {
    let steps = explained("U; U; S 0; S 1; N 1 0; L 1 0 1 U0&U1");
    let right: [&[&str]; 2] = [&["0 1 grant U0 U1"], &["0 1 grant"]];
    assert_eq!(lists(&steps[5]), right);
}

#[test]
fn lists_on_a_terminal() {
    let mut out = Vec::new();
    trace::write(&[], explained(CALLS), false, &mut out).expect("a vector takes it");
    let out = String::from_utf8(out).expect("text");
    let listed = "\
    sheet   segment 0 of user 0 [S0]
    lock    0 grants read if S1&!U0|S0
    lock    1 denies write if U0
    owner   sees 0 2 grant !U0 S1; 0 2 grant S0; 1 4 deny U0
    others  see 0 2 grant; 1 4 deny
 6  D 0 0";
    assert!(out.contains(listed), "{out}");
    let bare = "    sheet   segment 0 of user 0 [S0]\n 3  N 0 0";
    assert!(out.contains(bare), "{out}");
}
