//! Explanations written down by hand, and explanations of random lists against
//! the proved guard's answers.

#[expect(dead_code, reason = "other tests use the rest")]
mod journals;
mod lesson;

use journals::{borrowed, random_list};
use keylock::answer::Answer;
use keylock::steps::{self, Change, Entry, Holder, Step, Tried, shown_keys};
use keylock::trace;
use lesson::{ROUTE, explained};
use rotundaaloe::Letter;
use std::collections::{BTreeMap, BTreeSet};
use testing::calls::WORLDS;
use testing::random::Random;

/// A step's lock with this number.
fn lock<'a>(step: &'a Step, number: u16) -> &'a Tried {
    let judgement = step.judgement.as_ref().expect("a call that locks decide");
    let mut locks = judgement.locks.iter();
    locks
        .find(|tried| tried.lock.number == number)
        .expect("a lock that stands")
}

/// The key set after a step.
fn keys(step: &Step) -> String {
    shown_keys(&step.thread.as_ref().expect("a thread").keys)
}

/// What the terminal shows.
fn traced(introduction: &[String], steps: &[Step], colour: bool) -> String {
    let mut out = Vec::new();
    trace::write(introduction, steps.to_vec(), colour, &mut out).expect("a vector takes it");
    String::from_utf8(out).expect("text")
}

/// The segments of the open calls after a step.
fn stack(step: &Step) -> Vec<u16> {
    let thread = step.thread.as_ref().expect("a thread");
    thread.calls.iter().map(|call| call.segment).collect()
}

/// What each literal of a product does, and who holds its key.
fn literals(tried: &Tried, product: usize) -> Vec<(String, bool, Vec<Holder>)> {
    let literals = tried.products[product].literals.iter();
    literals
        .map(|literal| {
            let shown = literal.literal.to_string();
            (shown, literal.agrees(), literal.held_by.clone())
        })
        .collect()
}

#[test]
fn a_save_on_the_route() {
    let step = &explained(ROUTE)[12];
    assert_eq!(step.given().to_string(), "ok 2");
    assert_eq!(step.written(), "A 0 2 4");
    assert_eq!(step.call_in_words, "thread 0 writes segment 2");
    assert_eq!(step.reason, "Lock 2 opens: thread 0 holds S0 and S1.");
    let judgement = step.judgement.as_ref().expect("locks decide it");
    assert_eq!(judgement.decided, Some(2));
    assert_eq!(judgement.locks.len(), 1);
    let tried = lock(step, 2);
    assert!(tried.opens() && !tried.lock.denies());
    let held = |key: &str, segment| (key.to_string(), true, vec![Holder::Call(segment)]);
    assert_eq!(literals(tried, 0), [held("S0", 0), held("S1", 1)]);
    assert_eq!(stack(step), [0, 1]);
    assert_eq!(keys(step), "U0 R0 S0 S1");
}

#[test]
fn a_save_off_the_route() {
    let step = &explained(ROUTE)[13];
    assert_eq!(step.given().to_string(), "no 15 0");
    let tried = lock(step, 2);
    assert!(!tried.opens());
    assert_eq!(tried.lock.text, b"S0&S1");
    assert_eq!(
        literals(tried, 0),
        [
            ("S0".to_string(), false, vec![]),
            ("S1".to_string(), true, vec![Holder::Call(1)]),
        ]
    );
    let against = tried.products[0].against();
    assert_eq!(
        against,
        ["S0 is missing: segment 0 hands it over, and this thread has no open call of it"]
    );
    assert_eq!(stack(step), [1]);
    assert_eq!(keys(step), "U0 R1 S1");
}

#[test]
fn a_return() {
    let steps = explained(ROUTE);
    let step = &steps[14];
    assert_eq!(stack(step), [0]);
    assert_eq!(keys(step), "U0 R0 S0");
    assert_eq!(step.reason, "It gives back S1.");
    match &step.thread.as_ref().expect("a thread").change {
        Change::Left(call) => assert_eq!(call.segment, 1),
        other => panic!("{other:?}"),
    }
    let against = lock(&steps[15], 2).products[0].against();
    assert_eq!(
        against,
        ["S1 is missing: segment 1 hands it over, and this thread has no open call of it"]
    );
}

#[test]
fn a_call_is_judged_on_the_keys_before_it() {
    let calls = "U; S 0; N 0 0; L 0 0 1 !S0; C 0 0; C 0 0";
    let steps = explained(calls);
    let judged = |step: &Step| shown_keys(&step.judgement.as_ref().expect("locks").keys);
    assert_eq!(judged(&steps[4]), "U0 R0");
    assert_eq!(keys(&steps[4]), "U0 R0 S0");
    assert_eq!(steps[5].given().to_string(), "no 15 0");
    let against = lock(&steps[5], 0).products[0].against();
    let because = "S0 is barred, but held: this thread's open call of segment 0 handed it over";
    assert_eq!(against, [because]);
}

#[test]
fn one_part_called_twice() {
    let calls = "U; S 0; N 0 0; L 0 0 1 U0; C 0 0; C 0 0; R 0; R 0";
    let steps = explained(calls);
    assert_eq!(keys(&steps[6]), "U0 R0 S0");
    let stays = "S0 stays held: another open call of this thread handed it over too.";
    assert_eq!(steps[6].reason, stays);
    assert_eq!(keys(&steps[7]), "U0 R0");
}

#[test]
fn a_deny_lock_with_a_barred_key() {
    let calls =
        "U; S 0; N 0 0; N 0 1; L 0 0 1 U0; L 0 1 2 U0; L 0 1 10 U0&!S0; A 0 1 2; C 0 0; A 0 1 2";
    let steps = explained(calls);
    assert_eq!(steps[7].given().to_string(), "no 14 2");
    assert_eq!(
        steps[7].judgement.as_ref().and_then(|found| found.decided),
        Some(2)
    );
    assert!(lock(&steps[7], 1).opens(), "a deny beats the grant");
    let barred = &lock(&steps[7], 2).products[0].literals[1];
    assert_eq!(barred.in_short(), "not held");
    assert_eq!(steps[9].given().to_string(), "ok 1");
    let barred = &lock(&steps[9], 2).products[0].literals[1];
    assert_eq!(barred.in_short(), "held but barred");
    assert_eq!(barred.held_by, [Holder::Call(0)]);
}

#[test]
fn a_lock_with_two_products() {
    let calls = "U; U; S 1; N 0 1; L 0 0 2 U0&R0|U1; A 0 0 2";
    let steps = explained(calls);
    let step = &steps[5];
    let tried = lock(step, 0);
    let opens: Vec<bool> = tried.products.iter().map(|product| product.opens).collect();
    assert_eq!(opens, [false, true]);
    let against = tried.products[0].against();
    assert_eq!(against, ["U0 is missing: thread 0 runs for user 1"]);
    assert_eq!(tried.products[1].sources(), "U1 always held");
    let grants = "It grants read to a thread that holds U0 and R0, or holds U1.";
    assert_eq!(steps[4].reason, grants);
}

#[test]
fn a_dropped_lock() {
    let calls =
        "U; S 0; N 0 1; L 0 0 6 U0; L 0 0 4 U0; A 0 0 4; D 0 0; A 0 0 4; D 0 1; A 0 0 4; D 0 1";
    let steps = explained(calls);
    assert_eq!(steps[5].given().to_string(), "ok 0");
    assert_eq!(steps[7].given().to_string(), "ok 1");
    let standing = |step: &Step| step.judgement.as_ref().expect("locks").locks.len();
    assert_eq!([5, 7, 9].map(|place| standing(&steps[place])), [2, 1, 0]);
    assert_eq!(steps[9].reason, "No lock grants write on segment 0.");
    assert_eq!(steps[10].reason, "Lock 1 was dropped.");
}

#[test]
fn an_open_call_loses_a_key_that_is_taken() {
    let calls = "U; S 0; N 0 0; K 0; G 0 0 0; L 0 0 1 U0; C 0 0; T 0 0 0; R 0; C 0 0; E 0";
    let steps = explained(calls);
    assert_eq!(
        steps[7].reason,
        "New calls of segment 0 don't hand over D0. It is withdrawn from an open call of thread 0."
    );
    let list = &steps[7].segment.as_ref().expect("a segment").keys;
    assert_eq!(shown_keys(list), "S0");
    match &steps[8].thread.as_ref().expect("a thread").change {
        Change::Left(call) => assert_eq!(shown_keys(&call.keys), "S0"),
        other => panic!("{other:?}"),
    }
    assert_eq!(steps[8].reason, "It gives back S0.");
    assert_eq!(keys(&steps[9]), "U0 R0 S0");
    match &steps[10].thread.as_ref().expect("a thread").change {
        Change::Ended(calls) => assert_eq!(calls.len(), 1),
        other => panic!("{other:?}"),
    }
}

/// A given key reaches new calls only, and an open one that lost it doesn't get it
/// back.
#[test]
fn a_key_given_again() {
    let calls = "U; S 0; N 0 0; K 0; L 0 0 1 U0; G 0 0 0; C 0 0; T 0 0 0; G 0 0 0; T 0 0 0; C 0 0";
    let steps = explained(calls);
    let given = "New calls of segment 0 hand over D0. Open ones don't get it";
    assert_eq!(steps[5].reason, format!("{given}."));
    let again = format!("{given}, not even those that it was taken from.");
    assert_eq!(steps[8].reason, again);
    let taken = "New calls of segment 0 don't hand over D0.";
    let lost = " It is withdrawn from an open call of thread 0.";
    assert_eq!(steps[7].reason, format!("{taken}{lost}"));
    assert_eq!(steps[9].reason, taken);
    assert_eq!(keys(&steps[6]), "U0 R0 S0 D0");
    assert_eq!(keys(&steps[10]), "U0 R0 S0");
}

#[test]
fn a_key_that_no_open_call_has_is_taken() {
    let calls = "U; S 0; N 0 0; K 0; L 0 0 1 U0; C 0 0; G 0 0 0; T 0 0 0";
    let taken = "New calls of segment 0 don't hand over D0.";
    assert_eq!(explained(calls)[7].reason, taken);
}

#[test]
fn a_sheet_hands_over_nothing() {
    let steps = explained("U; S 0; N 0 1; K 0; G 0 0 0; T 0 0 0");
    let uncalled = "A sheet isn't called, so nobody gets D0 from it.";
    assert_eq!(steps[4].reason, uncalled);
    assert_eq!(steps[5].reason, uncalled);
    let made = "Only user 0 can give D0, and only to segments of his own.";
    assert_eq!(steps[3].reason, made);
}

/// The call hands over S0, which the lock bars.
#[test]
fn a_granted_call_is_explained_with_the_keys_before_it() {
    let steps = explained("U; S 0; N 0 0; L 0 0 1 !S0; C 0 0; C 0 0");
    let opened = "Lock 0 opened: thread 0 didn't hold S0.";
    assert_eq!(steps[4].reason, opened);
    assert_eq!(keys(&steps[4]), "U0 R0 S0");
    assert_eq!(steps[5].given().to_string(), "no 15 0");
    let steps = explained("U; S 0; N 0 0; L 0 0 1 U0&!S0; C 0 0");
    let opened = "Lock 0 opened: thread 0 held U0 but not S0.";
    assert_eq!(steps[4].reason, opened);
    let out = traced(&[], &steps, false);
    let shown = "   tried   with the keys before the call: U0 R0\n   lock    0 grants";
    assert!(out.contains(shown), "{out}");
}

#[test]
fn keys_given_back_and_keys_that_stay() {
    let calls = "U; S 0; N 0 0; N 0 0; K 0; K 0; G 0 0 1; G 0 0 0; G 0 1 1; L 0 0 1 U0; \
         L 0 1 1 U0; C 0 0; C 0 0; R 0; T 0 0 0; C 0 1; R 0; C 0 0; R 0; R 0; E 0";
    let steps = explained(calls);
    let reasons = [13, 16, 18, 19, 20].map(|place| steps[place].reason.as_str());
    assert_eq!(
        reasons,
        [
            "S0, D1 and D0 stay held: another open call of this thread handed them over too.",
            "It gives back S1. D1 stays held: another open call of this thread handed it over too.",
            "S0 and D1 stay held: another open call of this thread handed them over too.",
            "It gives back S0 and D1.",
            "It holds no key any more.",
        ]
    );
    let calls = "U; S 0; N 0 0; N 0 0; N 0 0; K 0; K 0; G 0 0 0; G 0 1 1; G 0 2 0; G 0 2 1; \
         L 0 0 1 U0; L 0 1 1 U0; L 0 2 1 U0; C 0 0; C 0 1; C 0 2; R 0; R 0; E 0";
    let steps = explained(calls);
    let back = "It gives back S2. \
                D0 and D1 stay held: other open calls of this thread handed them over too.";
    assert_eq!(steps[17].reason, back);
    let ended = "Its open call is closed, and it holds no key any more.";
    assert_eq!(steps[19].reason, ended);
}

#[test]
fn a_dropped_deny_lock() {
    let steps = explained("U; S 0; N 0 1; L 0 0 2 U0; L 0 0 10 U0; D 0 1; D 0 0");
    let denied = "It keeps nobody out any more, threads in mid-run included.";
    assert_eq!(steps[5].reason, denied);
    let granted = "It opens for nobody any more, threads in mid-run included.";
    assert_eq!(steps[6].reason, granted);
}

#[test]
fn why_other_calls_are_refused() {
    // Thread 1 is user 0's and thread 2 user 1's.
    let calls = "S 3; U; U; N 0 0; R 0; S 0; E 0; R 0; K 0; S 0; S 1; N 2 0; N 1 2; N 1 1; \
         K 1; K 2; R 1; C 1 7; G 1 1 5; G 1 0 0; G 1 1 1; G 1 1 0; G 1 1 0; T 1 1 1; T 2 1 0; \
         L 1 1 1 U0; L 1 1 16 U0; L 1 1 2 U0&; L 1 1 2 U0|S9; L 1 1 2 u0; L 1 1 2 U0&!U0; \
         A 1 1 1; A 1 0 2; C 1 1; D 1 0; L 1 1 2 U0; D 2 0";
    let reasons: Vec<String> = explained(calls)
        .iter()
        .filter_map(|step| Some((step.answer.err()?.number(), &step.reason)))
        .map(|(number, reason)| format!("{number} {reason}"))
        .collect();
    assert_eq!(
        reasons,
        [
            "1 There is no user 3: no user was made so far.",
            "2 Thread 0 was never started. Only a live thread edits, for its user.",
            "2 Thread 0 was never started.",
            "2 Thread 0 has ended.",
            "2 Thread 0 has ended. Only a live thread edits, for its user.",
            "7 A segment is code (0) or a sheet (1).",
            "9 Thread 1 has no open call to return from.",
            "3 There is no segment 7: 2 segments were made so far.",
            "4 There is no key D5: 2 keys were made so far.",
            "6 Segment 0 belongs to user 1, and thread 1 edits for user 0.",
            "6 Key D1 was made by user 1, and thread 1 edits for user 0. Only its maker gives a key.",
            "8 D0 is in the list of segment 1 already: S1 D0.",
            "9 D1 isn't in the list of segment 1: S1 D0.",
            "6 Segment 1 belongs to user 0, and thread 2 edits for user 1.",
            "7 Segment 1 is a sheet, which takes read and write only.",
            "7 A lock has some of execute (1), read (2) and write (4), and maybe deny (8).",
            "11 At the end of the text: a key, '!' or '(' is missing there.",
            "11 The key S9 isn't handed out yet.",
            "11 At 'u', byte 1 of the text: a key has a capital letter.",
            "13 No key set opens it: every product has a key both plain and barred.",
            "7 An access is a read (2) or a write (4).",
            "7 Segment 0 is code: it is called, and not read or written.",
            "7 Segment 1 is a sheet: it is read or written, and not called.",
            "5 Lock 0 was never made.",
            "6 Lock 0 is on segment 1, which belongs to user 0, and thread 2 edits for user 1.",
        ]
    );
}

/// Thread 0 is user 1's, threads 1 and 2 are user 0's. What thread 1 makes is
/// user 0's still when it has ended, and thread 2 edits it.
#[test]
fn who_edits() {
    let calls = "U; U; S 1; S 0; S 0; N 1 0; K 1; E 1; G 2 0 0; L 0 0 1 U1; N 1 1; T 2 0 0; N 3 1";
    let steps = explained(calls);
    let told: Vec<[String; 2]> = steps[5..]
        .iter()
        .map(|step| [step.call_in_words.clone(), step.given().to_string()])
        .collect();
    assert_eq!(
        told,
        [
            ["thread 1, for user 0, makes a code segment", "ok 0"],
            ["thread 1, for user 0, makes a key", "ok 0"],
            ["thread 1 ends", "ok 0"],
            ["thread 2, for user 0, gives key D0 to segment 0", "ok 2"],
            ["thread 0, for user 1, locks segment 0: execute", "no 6 0"],
            ["thread 1 makes a sheet", "no 2 0"],
            ["thread 2, for user 0, takes key D0 from segment 0", "ok 1"],
            ["thread 3 makes a sheet", "no 2 0"],
        ]
    );
    let made = "Only user 0 can give D0, and only to segments of his own.";
    assert_eq!(steps[6].reason, made);
    for place in [5, 8, 9, 11] {
        let segment = steps[place].segment.as_ref().expect("a segment");
        assert_eq!(segment.owner_said, "user 0", "{place}");
    }
}

#[test]
fn who_edits_has_a_name() {
    let mut entries = lesson::entries("U; U; S 0; S 1; N 0 1; K 1; L 1 0 2 U1; G 0 0 0; E 1; K 1");
    for (place, note) in [
        (0, "user 0, the office"),
        (1, "user 1, the auditor"),
        (3, "thread 1, the audit"),
        (4, "segment 0, the totals sheet"),
        (5, "key D0, the auditor's"),
    ] {
        entries[place].note = Some(note.to_string());
    }
    let steps: Vec<Step> = steps::explain(entries).collect();
    let calls = [4, 5, 6, 9].map(|place| steps[place].call_in_words.as_str());
    assert_eq!(
        calls,
        [
            "thread 0, for the office (user 0), makes a sheet",
            "the audit (thread 1), for the auditor (user 1), makes a key",
            "the audit (thread 1), for the auditor (user 1), locks the totals sheet (segment 0): \
             read",
            "the audit (thread 1) makes a key",
        ]
    );
    let reasons = [5, 6, 7, 9].map(|place| steps[place].reason.as_str());
    assert_eq!(
        reasons,
        [
            "Only the auditor (user 1) can give D0, and only to segments of his own.",
            "The totals sheet (segment 0) belongs to the office (user 0), \
             and the audit (thread 1) edits for the auditor (user 1).",
            "The auditor's (key D0) was made by the auditor (user 1), \
             and thread 0 edits for the office (user 0). Only its maker gives a key.",
            "The audit (thread 1) has ended. Only a live thread edits, for its user.",
        ]
    );
}

#[test]
fn which_limit_would_be_passed() {
    let many = |count: usize, call: &str| vec![call; count].join("; ");
    let keys = "G 0 0 0; G 0 0 1; G 0 0 2; G 0 0 3; G 0 0 4; G 0 0 5; G 0 0 6; G 0 0 7";
    let wide = "D0|D1|D2|D3|D4|D5|D6|D7";
    for (calls, reason) in [
        (many(33, "U"), "There are 32 users, and no more fit."),
        (
            format!("U; S 0; {}", many(65, "N 0 0")),
            "There are 64 segments, and no more fit.",
        ),
        (
            format!("U; S 0; {}", many(1_025, "K 0")),
            "There are 1,024 keys, and no more fit.",
        ),
        (
            format!("U; {}", many(65, "S 0")),
            "There are 64 live threads, and no more fit.",
        ),
        (
            format!("U; S 0; N 0 0; {}; {keys}", many(8, "K 0")),
            "The list of segment 0 has 8 keys, and no more fit: S0 D0 D1 D2 D3 D4 D5 D6.",
        ),
        (
            format!(
                "U; S 0; N 0 0; {}; L 0 0 1 {wide}; L 0 0 1 U0",
                many(8, "K 0")
            ),
            "The locks of segment 0 have 8 products and this one 1: over 8 don't fit.",
        ),
        (
            format!("U; S 0; N 0 0; L 0 0 1 U0; {}", many(17, "C 0 0")),
            "A lock opens, but thread 0 has 16 open calls, and no more fit.",
        ),
    ] {
        let steps = explained(&calls);
        let (last, before) = steps.split_last().expect("a step");
        assert_eq!(last.given().to_string(), "no 10 0", "{reason}");
        assert_eq!(last.reason, reason);
        assert!(before.iter().all(|step| step.answer.is_ok()), "{reason}");
    }
}

#[test]
fn names_stand_in_every_sentence() {
    let steps: Vec<Step> = steps::explain(lesson::named_route()).collect();
    let calls = [5, 11, 13].map(|place| steps[place].call_in_words.as_str());
    assert_eq!(
        calls,
        [
            "thread 0, for the office (user 0), makes a sheet",
            "the February closing (thread 1) calls segment 1",
            "the February closing (thread 1) writes the totals sheet (segment 2)",
        ]
    );
    let answers = [5, 1, 13, 14].map(|place| steps[place].answer_in_words.as_str());
    let refused = "refused: no way in (15)";
    assert_eq!(
        answers,
        [
            "the totals sheet (segment 2)",
            "thread 0",
            refused,
            "left segment 1"
        ]
    );
    let reasons = [11, 12, 13].map(|place| steps[place].reason.as_str());
    assert_eq!(
        reasons,
        [
            "Lock 1 opened: the February closing (thread 1) held U0.",
            "Lock 2 opens: thread 0 holds S0 and S1.",
            "S0 is missing: the rate loader (segment 0) hands it over, \
             and this thread has no open call of it.",
        ]
    );
    let calls = &steps[12].thread.as_ref().expect("a thread").calls;
    let said: Vec<&str> = calls.iter().map(|call| call.said.as_str()).collect();
    assert_eq!(said, ["the rate loader (segment 0)", "segment 1"]);
    let sources = lock(&steps[12], 2).products[0].sources();
    let from = "S0 from the rate loader (segment 0), S1 from segment 1";
    assert_eq!(sources, from);
}

#[test]
fn a_step_in_one_sentence() {
    let mut entries = lesson::named_route();
    entries[15].expected = Some(Answer::Ok(2));
    let steps: Vec<Step> = steps::explain(entries).collect();
    let sentences = [0, 8, 12, 13, 15].map(|place| steps[place].in_a_sentence());
    assert_eq!(
        sentences,
        [
            "a new user, the office (user 0).",
            "thread 0, for the office (user 0), locks the totals sheet (segment 2): write, lock 2.",
            "thread 0 writes the totals sheet (segment 2), granted by lock 2.",
            "the February closing (thread 1) writes the totals sheet (segment 2), \
             refused: no way in (15), S0 is missing.",
            "thread 0 writes the totals sheet (segment 2), \
             refused: no way in (15), S1 is missing, not as expected.",
        ]
    );
}

/// The reason of the last call, which is refused with 15.
fn lacking(calls: &str) -> String {
    let steps = explained(calls);
    let step = steps.last().expect("a step");
    assert_eq!(step.given().to_string(), "no 15 0", "{calls}");
    step.reason.clone()
}

/// Segments 0 and 1 are code, 2 is a sheet with a lock that D0 opens.
const DEFINED: &str = "U; S 0; N 0 0; N 0 0; N 0 1; K 0; L 0 0 1 U0; L 0 2 4 D0";

#[test]
fn a_missing_key_and_where_it_comes_from() {
    for (calls, lack) in [
        ("", "no code segment hands it over"),
        ("G 0 2 0; ", "no code segment hands it over"),
        (
            "G 0 1 0; ",
            "segment 1 hands it over, and this thread has no open call of it",
        ),
        (
            "G 0 0 0; G 0 1 0; ",
            "segment 0 and segment 1 hand it over, and this thread has no open call of them",
        ),
        (
            "N 0 0; G 0 0 0; G 0 1 0; G 0 3 0; ",
            "segment 0 and 2 others hand it over, and this thread has no open call of them",
        ),
        (
            "C 0 0; G 0 0 0; ",
            "segment 0 hands it over, but this thread's open call of it was made before it did",
        ),
        (
            "G 0 0 0; C 0 0; R 0; ",
            "segment 0 hands it over, and this thread has no open call of it",
        ),
    ] {
        let reason = lacking(&format!("{DEFINED}; {calls}A 0 2 4"));
        assert_eq!(reason, format!("D0 is missing: {lack}."), "{calls}");
    }
    let own = lacking("U; S 0; N 0 1; L 0 0 2 S0; A 0 0 2");
    let sheet = "S0 is missing: segment 0 is a sheet, and no sheet is called.";
    assert_eq!(own, sheet);
    let user = lacking("U; U; S 0; N 0 1; L 0 0 2 U1; A 0 0 2");
    assert_eq!(user, "U1 is missing: thread 0 runs for user 0.");
    let thread = lacking("U; S 0; S 0; N 0 1; L 0 0 2 R1; A 0 0 2");
    assert_eq!(thread, "R1 is missing: this is thread 0.");
}

#[test]
fn a_missing_key_has_its_name() {
    let calls = "U; S 0; N 0 0; N 0 1; K 0; G 0 0 0; L 0 1 4 D0; A 0 1 4";
    let mut entries = lesson::entries(calls);
    entries[2].note = Some("segment 0, the audit".to_string());
    entries[4].note = Some("key D0, the auditor's".to_string());
    let last = steps::explain(entries).last().expect("a step");
    let missing = "D0, the auditor's, is missing: \
                   the audit (segment 0) hands it over, and this thread has no open call of it.";
    assert_eq!(last.reason, missing);
}

#[test]
fn several_missing_keys_and_barred_ones() {
    let two = lacking("U; S 0; N 0 0; N 0 0; N 0 1; K 0; L 0 2 4 S0&S1&D0; A 0 2 4");
    let missing = "S0 of segment 0, S1 of segment 1 and D0 are missing: \
                   no open call of this thread hands them over.";
    assert_eq!(two, missing);
    let barred = lacking("U; S 0; N 0 0; N 0 1; L 0 1 2 S0&!U0; A 0 1 2");
    let both = "S0 is missing: segment 0 hands it over, and this thread has no open call of it; \
                U0 is barred, but held: it is an identity key of the thread.";
    assert_eq!(barred, both);
}

/// Thread 1 has open calls of segments 0 and 1, and they bring thread 0 nothing.
#[test]
fn open_calls_of_another_thread() {
    let world = "U; S 0; S 0; N 0 0; N 0 0; N 0 1; L 0 0 1 U0; L 0 1 1 U0; C 1 0; C 1 1";
    for (calls, reason) in [
        (
            "L 0 2 2 S0",
            "S0 is missing: segment 0 hands it over, and this thread has no open call of it.",
        ),
        (
            "K 0; G 0 0 0; G 0 1 0; L 0 2 2 D0",
            "D0 is missing: segment 0 and segment 1 hand it over, \
             and this thread has no open call of them.",
        ),
        (
            "L 0 2 2 S0&S1",
            "S0 of segment 0 and S1 of segment 1 are missing: \
             no open call of this thread hands them over.",
        ),
        (
            "L 0 2 2 !S0; C 0 0; C 0 0",
            "S0 is barred, but held: 2 open calls of this thread handed it over, \
             the newest of segment 0.",
        ),
    ] {
        let given = lacking(&format!("{world}; {calls}; A 0 2 2"));
        assert_eq!(given, reason, "{calls}");
    }
}

/// Of several products the one is named that the fewest keys hold shut.
#[test]
fn the_nearest_of_several() {
    let products = lacking("U; S 0; N 0 0; N 0 0; N 0 1; L 0 2 4 S0&S1|S1; A 0 2 4");
    let nearest = "Lock 0 has 2 products, and none opens. \
                   Nearest: S1 is missing: segment 1 hands it over, \
                   and this thread has no open call of it.";
    assert_eq!(products, nearest);
    let locks = lacking("U; U; S 0; N 0 1; L 0 0 2 U1&!U0; L 0 0 2 U1; L 0 0 10 U1; A 0 0 2");
    let nearest = "None of the 2 locks that grant read on segment 0 opens. \
                   Nearest is lock 1: U1 is missing: thread 0 runs for user 0.";
    assert_eq!(locks, nearest);
}

#[test]
fn a_deny_lock_says_what_opened_it() {
    let steps = explained("U; S 0; N 0 0; N 0 1; L 0 1 2 U0; L 0 1 10 U0&!S0; A 0 1 2");
    let denied =
        "Lock 1 opens: thread 0 holds U0 but not S0. It denies, and a deny beats every grant.";
    assert_eq!(steps[6].reason, denied);
}

#[test]
fn the_terminal_shows_it() {
    let mut entries = lesson::entries(ROUTE);
    entries[15].expected = Some(Answer::Ok(2));
    entries[15].note = Some("\x1b[2J".to_string());
    let steps: Vec<Step> = steps::explain(entries).collect();
    let introduction = ["A route.".to_string(), "\x1b[2J".to_string()];
    let text = |colour| traced(&introduction, &steps, colour);
    let plain = text(false);
    for line in [
        " 8  L 0 2 4 S0&S1  thread 0, for user 0, locks segment 2: write    ok 2     lock 2",
        "13  A 1 2 4        thread 1 writes segment 2                       \
         no 15 0  refused: no way in (15)",
        "    lock    2 grants write if S0&S1: stays shut",
        "    why     S0 is missing: segment 0 hands it over, \
         and this thread has no open call of it.",
        "              S0 & S1: shut. \
         S0 is missing: segment 0 hands it over, and this thread has no open call of it",
        "    stack   thread 1 [U0 R1] > segment 1 [S1]",
        "    keys    U0 R1 S1",
        "    WRONG   expected ok 2",
    ] {
        assert!(plain.lines().any(|shown| shown == line), "{line}\n{plain}");
    }
    assert!(
        plain.starts_with("A route.\n\\u{1b}[2J\n\n 0  U"),
        "{plain}"
    );
    assert!(!plain.contains('\x1b') && text(true).contains("\x1b[31m"));
    assert!(plain.contains("    note    \\u{1b}[2J\n"), "{plain}");
}

/// As long as it hands over the same keys.
#[test]
fn the_terminal_says_a_repeated_call_once() {
    let steps = explained("U; S 0; N 0 0; K 0; L 0 0 1 U0; C 0 0; C 0 0; G 0 0 0; C 0 0; E 0");
    let text = traced(&[], &steps, false);
    let open = "thread 0 [U0 R0] > segment 0 [S0], 2 times > segment 0 [S0 D0]";
    let closed = "thread 0 > segment 0 [S0], 2 times > segment 0 [S0 D0]";
    for line in [
        format!("stack   {open}  (just called)"),
        format!("closed  {closed}"),
    ] {
        let is_shown = text.lines().any(|shown| shown.trim_start() == line);
        assert!(is_shown, "{line}\n{text}");
    }
}

#[test]
fn the_fullest_journal() {
    let calls = lesson::fullest();
    let last = steps::explain(lesson::entries(&calls)).last();
    let last = last.expect("a step");
    assert_eq!(last.disagreement, None);
    assert_eq!(stack(&last), (0..16).collect::<Vec<u16>>());
    let keys = &last.thread.as_ref().expect("a thread").keys;
    assert_eq!(keys.len(), 2 + 16 * 8);
    let keys = "D112, D113, D114, D115, D116 and D117";
    assert_eq!(
        last.reason,
        format!(
            "None of the 8 locks that grant write on segment 16 opens. \
             Nearest is lock 16: {keys} are missing: no open call of this thread hands them over."
        )
    );
}

/// Every answer has an explanation that leads to it, and the locks decide in
/// each of the four ways, with lock lists beside them. Every letter is accepted
/// and refused.
#[test]
fn random_lists() {
    let mut random = Random::new(7);
    let mut judged = BTreeMap::new();
    let mut listed = 0;
    let mut seen = BTreeSet::new();
    for (world, lists) in WORLDS.iter().zip([200, 200, 20, 60, 60]) {
        for list in 0..lists {
            let records = random_list(&mut random, world);
            let entries = records.iter().map(|record| Entry::from(borrowed(record)));
            for step in steps::explain(entries) {
                let place = step.place;
                assert_eq!(step.disagreement, None, "{}: {list}, {place}", world.name);
                assert_ne!(step.reason, "", "{}: {list}, {place}", world.name);
                seen.insert((step.entry.record.letter, step.answer.is_ok()));
                let rows = step.asked.iter().flat_map(|asked| &asked.lists.owners);
                listed += usize::from(rows.count() > 1);
                if step.judgement.is_some() {
                    let refusal = step.answer.err().map_or(0, |refusal| refusal.number());
                    *judged.entry(refusal).or_insert(0) += 1;
                }
            }
        }
    }
    for letter in Letter::ALL {
        for accepted in [true, false] {
            let came = seen.contains(&(letter.byte(), accepted));
            assert!(came, "{letter:?}, accepted: {accepted}");
        }
    }
    assert!(judged.keys().eq(&[0, 10, 14, 15]), "{judged:?}");
    assert!(judged.values().all(|count| *count > 1_000), "{judged:?}");
    assert!(listed > 1_000, "{listed}");
}
