//! Keys that are taken while calls are open, in the step view: written down by hand
//! from document 02, P5, and on random lists read off from the calls and answers.

#[expect(dead_code, reason = "other tests use the rest")]
mod journals;
#[expect(dead_code, reason = "other tests use the rest")]
mod lesson;

use journals::borrowed;
use keylock::steps::{self, Change, Entry, OpenCall, Step, ThreadView, shown_keys};
use keylock::{page, trace};
use lesson::explained;
use reference::journal::Record as Call;
use rotundaaloe::formula::{Key, Literal};
use rotundaaloe::{Defined, Segment};
use std::collections::BTreeMap;
use testing::random::Random;
use testing::withdrawals;

/// Users 0 and 1 have a thread each. User 0's parts 0 and 1 hand over D0. Sheet 2 is
/// written by who holds D0, and read by who doesn't. The next step is 14.
const OFFICE: &str = "U; U; S 0; S 1; N 0 0; N 0 0; N 0 1; K 0; G 0 0 0; G 0 1 0; \
                      L 0 0 1 U0|U1; L 0 1 1 U0|U1; L 0 2 4 D0; L 0 2 2 !D0";

fn office(calls: &str) -> String {
    format!("{OFFICE}; {calls}")
}

/// `0: S0 -D0@15`: an open call of segment 0 hands over S0, and D0 was taken in step
/// 15.
fn shown(call: &OpenCall) -> String {
    let taken = call.taken.iter();
    let taken: String = taken
        .map(|taken| format!(" -{}@{}", taken.key, taken.step))
        .collect();
    format!("{}: {}{taken}", call.segment, shown_keys(&call.keys))
}

fn stack(thread: &ThreadView) -> Vec<String> {
    thread.calls.iter().map(shown).collect()
}

/// The open calls of a step's thread, the newest last.
fn stack_at(step: &Step) -> Vec<String> {
    stack(step.thread.as_ref().expect("a thread"))
}

/// The threads that lose a key by a step, with their open calls and keys.
fn losing(step: &Step) -> Vec<(u16, Vec<String>, String)> {
    let threads = step.losing.iter();
    threads
        .map(|thread| (thread.number, stack(thread), shown_keys(&thread.keys)))
        .collect()
}

/// The call that a step left.
fn left(step: &Step) -> String {
    match &step.thread.as_ref().expect("a thread").change {
        Change::Left(call) => shown(call),
        other => panic!("{other:?}"),
    }
}

fn given(step: &Step) -> String {
    step.given().to_string()
}

/// Thread 2, of the owner, takes D0 from part 0, of which threads 0 and 1 have open
/// calls. Thread 1 has D0 from part 1 too.
const TAKEN: &str = "C 0 0; C 0 0; C 1 0; C 1 1; S 0; T 2 0 0";

#[test]
fn every_open_call_of_the_segment_loses_it() {
    let calls = office(TAKEN);
    let steps = explained(&calls);
    assert_eq!(
        steps[19].reason,
        "New calls of segment 0 don't hand over D0. \
         It is withdrawn from 2 open calls of thread 0 and an open call of thread 1."
    );
    let lost = || "0: S0 -D0@19".to_string();
    assert_eq!(
        losing(&steps[19]),
        [
            (0, vec![lost(), lost()], "U0 R0 S0".to_string()),
            (
                1,
                vec![lost(), "1: S1 D0".to_string()],
                "U1 R1 S0 S1 D0".to_string()
            ),
        ]
    );
    assert!(steps[..19].iter().all(|step| step.losing.is_empty()));
    assert_eq!(stack_at(&steps[17]), ["0: S0 D0", "1: S1 D0"]);
}

#[test]
fn it_stays_struck_out_while_the_call_is_open() {
    let calls = format!(
        "{}; A 0 2 4; A 1 2 4; R 1; A 1 2 4; R 0; R 0; C 0 0; E 1",
        office(TAKEN)
    );
    let steps = explained(&calls);
    let lost = "0: S0 -D0@19";
    assert_eq!(given(&steps[20]), "no 15 0");
    assert_eq!(stack_at(&steps[20]), [lost, lost]);
    assert_eq!(given(&steps[21]), "ok 2");
    assert_eq!(stack_at(&steps[21]), [lost, "1: S1 D0"]);
    // What was held until the return is given back, and no more.
    assert_eq!(left(&steps[22]), "1: S1 D0");
    assert_eq!(steps[22].reason, "It gives back S1 and D0.");
    assert_eq!(stack_at(&steps[22]), [lost]);
    assert_eq!(given(&steps[23]), "no 15 0");
    assert_eq!(left(&steps[24]), lost);
    assert_eq!(
        steps[24].reason,
        "S0 stays held: another open call of this thread handed it over too."
    );
    assert_eq!(left(&steps[25]), lost);
    assert_eq!(steps[25].reason, "It gives back S0.");
    // A new call in the same place of the stack has lost nothing.
    assert_eq!(stack_at(&steps[26]), ["0: S0"]);
    match &steps[27].thread.as_ref().expect("a thread").change {
        Change::Ended(calls) => assert_eq!(calls.iter().map(shown).collect::<Vec<_>>(), [lost]),
        other => panic!("{other:?}"),
    }
    assert!(steps[20..].iter().all(|step| step.losing.is_empty()));
}

/// By another user, in an ended thread, of what isn't there, and of a key that isn't
/// in the list.
#[test]
fn a_refused_take_withdraws_nothing() {
    let refused = "T 1 0 0; T 2 0 0; T 9 0 0; T 0 9 0; T 0 0 9; T 0 0 1";
    let calls = office(&format!(
        "C 0 0; C 1 0; S 0; E 2; K 0; {refused}; A 0 2 4; A 1 2 4"
    ));
    let steps = explained(&calls);
    let answers: Vec<String> = steps[19..25].iter().map(given).collect();
    let right = ["no 6 0", "no 2 0", "no 2 0", "no 3 0", "no 4 0", "no 9 0"];
    assert_eq!(answers, right);
    assert!(steps.iter().all(|step| step.losing.is_empty()));
    for access in &steps[25..] {
        assert_eq!(given(access), "ok 2");
        assert_eq!(stack_at(access), ["0: S0 D0"]);
    }
}

#[test]
fn a_key_given_again_serves_later_calls() {
    let calls = office(
        "C 0 0; T 0 0 0; G 0 0 0; A 0 2 4; C 0 0; A 0 2 4; T 0 0 0; A 0 2 4; R 0; G 0 0 0; \
         T 0 1 0; G 0 1 0; R 0; T 0 0 0; G 0 0 0",
    );
    let steps = explained(&calls);
    let again = "New calls of segment 0 hand over D0. \
                 Open ones don't get it, not even those that it was taken from.";
    assert_eq!(steps[16].reason, again);
    assert_eq!(given(&steps[17]), "no 15 0");
    assert_eq!(stack_at(&steps[17]), ["0: S0 -D0@15"]);
    assert_eq!(given(&steps[19]), "ok 2");
    assert_eq!(stack_at(&steps[19]), ["0: S0 -D0@15", "0: S0 D0"]);
    // Each call shows the step that took the key from it.
    let both = ["0: S0 -D0@15", "0: S0 -D0@20"];
    assert_eq!(given(&steps[21]), "no 15 0");
    assert_eq!(stack_at(&steps[21]), both);
    assert_eq!(stack(&steps[20].losing[0]), both);
    assert_eq!(left(&steps[22]), both[1]);
    assert_eq!(steps[23].reason, again);
    // It wasn't taken from an open call of segment 1, and in the end none is open.
    let given = "New calls of segment 1 hand over D0. Open ones don't get it.";
    assert_eq!(steps[25].reason, given);
    assert_eq!(steps[28].reason, given.replace("segment 1", "segment 0"));
    let taken = "New calls of segment 0 don't hand over D0.";
    assert_eq!(steps[27].reason, taken);
}

#[test]
fn several_keys_are_struck_out_in_the_order_of_taking() {
    let calls = office("K 0; G 0 0 1; C 0 0; T 0 0 1; T 0 0 0; G 0 0 1; A 0 2 4");
    let steps = explained(&calls);
    assert_eq!(stack(&steps[17].losing[0]), ["0: S0 D0 -D1@17"]);
    assert_eq!(stack(&steps[18].losing[0]), ["0: S0 -D1@17 -D0@18"]);
    assert_eq!(stack_at(&steps[20]), ["0: S0 -D1@17 -D0@18"]);
}

/// Up to four threads are named. All of them are shown.
#[test]
fn threads_that_lose_a_key_are_named_or_counted() {
    let one = |thread: u16| format!("an open call of thread {thread}");
    let four = format!("{}, {}, {} and {}", one(0), one(1), one(2), one(3));
    for (opened, from, threads) in [
        ("C 3 0", one(3), vec![3]),
        ("C 0 0; C 1 0; C 2 0; C 3 0", four, vec![0, 1, 2, 3]),
        (
            "C 4 0; C 0 0; C 1 0; C 2 0; C 3 0; C 4 0",
            "6 open calls of 5 threads".to_string(),
            vec![0, 1, 2, 3, 4],
        ),
    ] {
        let calls = office(&format!("S 0; S 1; S 1; {opened}; T 0 0 0"));
        let steps = explained(&calls);
        let last = steps.last().expect("a step");
        let taken =
            format!("New calls of segment 0 don't hand over D0. It is withdrawn from {from}.");
        assert_eq!(last.reason, taken);
        let lost: Vec<u16> = last.losing.iter().map(|thread| thread.number).collect();
        assert_eq!(lost, threads);
    }
}

/// The reason of the last call, which is answered so.
fn reason(calls: &str, answer: &str) -> String {
    let calls = office(calls);
    let steps = explained(&calls);
    let last = steps.last().expect("a step");
    assert_eq!(given(last), answer, "{calls}");
    last.reason.clone()
}

#[test]
fn a_missing_key_that_was_taken() {
    let of_it = "so this thread's open call of it hands it over no more";
    let of_both = "taken from segment 0 in step 16 and from segment 1 in step 17, \
                   so this thread's open calls of them hand it over no more";
    for (calls, lack) in [
        (
            "C 0 0; T 0 0 0",
            format!("taken from segment 0 in step 15, {of_it}, but a new call of segment 1 would"),
        ),
        (
            "T 0 1 0; C 0 0; T 0 0 0",
            format!("taken from segment 0 in step 16, {of_it}"),
        ),
        (
            "T 0 1 0; C 0 0; T 0 0 0; G 0 0 0",
            format!("taken from segment 0 in step 16, {of_it}, but a new one would"),
        ),
        (
            "T 0 1 0; C 0 0; C 0 0; T 0 0 0",
            "taken from segment 0 in step 17, \
             so this thread's open calls of it hand it over no more"
                .to_string(),
        ),
        (
            "T 0 1 0; C 0 0; T 0 0 0; G 0 0 0; C 0 0; T 0 0 0",
            "taken from segment 0 in steps 16 and 19, \
             so this thread's open calls of it hand it over no more"
                .to_string(),
        ),
        ("C 0 1; C 0 0; T 0 0 0; T 0 1 0", of_both.to_string()),
        (
            "C 0 1; C 0 0; T 0 0 0; T 0 1 0; G 0 1 0",
            format!("{of_both}, but a new call of segment 1 would"),
        ),
    ] {
        let given = reason(&format!("{calls}; A 0 2 4"), "no 15 0");
        assert_eq!(given, format!("D0 is missing: it was {lack}."), "{calls}");
    }
}

/// The call that lost it isn't open any more, never had it, or is another thread's.
#[test]
fn a_missing_key_that_was_not_taken_from_an_open_call_of_the_thread() {
    for (calls, lack) in [
        (
            "T 0 1 0; C 0 0; T 0 0 0; R 0",
            "no code segment hands it over",
        ),
        (
            "T 0 1 0; T 0 0 0; C 0 0; G 0 0 0; T 0 0 0; G 0 0 0",
            "segment 0 hands it over, but this thread's open call of it was made before it did",
        ),
        ("T 0 1 0; C 1 0; T 0 0 0", "no code segment hands it over"),
    ] {
        let given = reason(&format!("{calls}; A 0 2 4"), "no 15 0");
        assert_eq!(given, format!("D0 is missing: {lack}."), "{calls}");
    }
}

/// It has a sentence of its own beside those that no open call ever handed over.
#[test]
fn a_key_that_was_taken_among_other_missing_ones() {
    let calls = "K 0; N 0 1; L 0 3 2 S1&D0&D1; C 0 0; T 0 0 0; A 0 3 2";
    assert_eq!(
        reason(calls, "no 15 0"),
        "S1 of segment 1 and D1 are missing: no open call of this thread hands them over; \
         D0 is missing: it was taken from segment 0 in step 18, \
         so this thread's open call of it hands it over no more, \
         but a new call of segment 1 would."
    );
}

#[test]
fn a_missing_key_that_was_taken_has_its_name() {
    let calls = office("T 0 1 0; C 0 0; T 0 0 0; A 0 2 4");
    let mut entries = lesson::entries(&calls);
    entries[4].note = Some("segment 0, the recalculation".to_string());
    entries[7].note = Some("key D0, the closing key".to_string());
    let steps: Vec<Step> = steps::explain(entries).collect();
    assert_eq!(
        steps[17].reason,
        "D0, the closing key, is missing: \
         it was taken from the recalculation (segment 0) in step 16, \
         so this thread's open call of it hands it over no more."
    );
}

/// Where each held key of the lock that decided the last call comes from, and where
/// each barred one went.
fn sources(calls: &str) -> String {
    let calls = office(calls);
    let steps = explained(&calls);
    let judgement = steps.last().and_then(|step| step.judgement.as_ref());
    let judgement = judgement.expect("locks decide it");
    let mut locks = judgement.locks.iter();
    let tried = locks.find(|tried| judgement.decided == Some(tried.lock.number));
    tried.expect("a lock").products[0].sources()
}

#[test]
fn a_barred_key_that_was_taken() {
    let held = "D0 is barred, but held: this thread's open call of segment";
    let opens = "Lock 3 opens: thread 0 doesn't hold D0.";
    let taken = "D0 taken from segment 0 in step 15";
    let was_taken = "D0 was taken from segment 0 in step 15.";
    assert_eq!(
        reason("C 0 0; A 0 2 2", "no 15 0"),
        format!("{held} 0 handed it over.")
    );
    for calls in [
        "C 0 0; T 0 0 0; A 0 2 2",
        "C 0 0; T 0 0 0; C 0 1; R 0; A 0 2 2",
    ] {
        assert_eq!(reason(calls, "ok 3"), format!("{opens} {was_taken}"));
        assert_eq!(sources(calls), taken);
    }
    // Part 1 hands it over still.
    assert_eq!(
        reason("C 0 0; T 0 0 0; C 0 1; A 0 2 2", "no 15 0"),
        format!("{held} 1 handed it over.")
    );
    // Nothing was taken from this thread.
    for calls in ["C 1 0; T 0 0 0; A 0 2 2", "C 0 0; T 0 0 0; R 0; A 0 2 2"] {
        assert_eq!(reason(calls, "ok 3"), opens);
        assert_eq!(sources(calls), "");
    }
}

/// A call is told of in the past, and there may be two of them.
#[test]
fn barred_keys_that_were_taken_open_a_part() {
    let calls = "K 0; G 0 1 1; N 0 0; L 0 3 1 U0&!D0&!D1; C 0 0; C 0 1; T 0 0 0; T 0 1 0; \
                 T 0 1 1; C 0 3";
    assert_eq!(
        reason(calls, "ok 4"),
        "Lock 4 opened: thread 0 held U0 but not D0 or D1. \
         D0 was taken from segment 0 in step 20 and from segment 1 in step 21. \
         D1 was taken from segment 1 in step 22."
    );
    assert_eq!(
        sources(calls),
        "U0 always held, D0 taken from segment 0 in step 20 and from segment 1 in step 21, \
         D1 taken from segment 1 in step 22"
    );
}

#[test]
fn a_deny_lock_opens_because_a_key_was_taken() {
    assert_eq!(
        reason("L 0 2 10 U0&!D0; C 0 0; T 0 0 0; A 0 2 2", "no 14 4"),
        "Lock 4 opens: thread 0 holds U0 but not D0. It denies, and a deny beats every grant. \
         D0 was taken from segment 0 in step 16."
    );
}

#[test]
fn a_deny_lock_stays_shut_because_a_key_was_taken() {
    let calls = office("L 0 2 12 D0; L 0 2 4 U0; C 0 0; A 0 2 4; T 0 0 0; A 0 2 4");
    let steps = explained(&calls);
    assert_eq!(
        [17, 19].map(|place| given(&steps[place])),
        ["no 14 4", "ok 5"]
    );
    let judgement = steps[19].judgement.as_ref().expect("locks decide it");
    let mut locks = judgement.locks.iter();
    let denies = locks.find(|tried| tried.lock.number == 4).expect("a lock");
    assert_eq!(
        denies.products[0].against(),
        ["D0 is missing: it was taken from segment 0 in step 18, \
          so this thread's open call of it hands it over no more, \
          but a new call of segment 1 would"]
    );
}

fn traced(calls: &str) -> String {
    let mut out = Vec::new();
    trace::write(&[], explained(calls), true, &mut out).expect("a vector takes it");
    String::from_utf8(out).expect("text")
}

/// In words, so that it is read without colours too.
#[test]
fn the_terminal_tells_it() {
    let calls = format!("{}; A 0 2 4; R 0; G 0 0 0; C 0 0; E 0", office(TAKEN));
    let text = traced(&calls);
    // Labels are painted, the lines behind them aren't.
    let lines: Vec<&str> = text
        .lines()
        .filter_map(|line| line.rsplit("\u{1b}[0m  ").next())
        .collect();
    let place = |wanted: &str| {
        let found = lines.iter().position(|line| *line == wanted);
        found.unwrap_or_else(|| panic!("{wanted}\n{text}"))
    };
    let lost = "segment 0 [S0; D0 taken in step 19]";
    let first = format!("thread 0 [U0 R0] > {lost}, 2 times");
    let taken = place(&first);
    assert_eq!(lines[taken + 1], "U0 R0 S0");
    let other = format!("thread 1 [U1 R1] > {lost} > segment 1 [S1 D0]");
    assert_eq!(lines[taken + 2], other);
    assert_eq!(lines[taken + 3], "U1 R1 S0 S1 D0");
    // At the T, and at the access after it.
    assert_eq!(lines.iter().filter(|line| **line == first).count(), 2);
    place(&format!("thread 0 [U0 R0] > {lost}  (just left: {lost})"));
    place(&format!(
        "thread 0 [U0 R0] > {lost} > segment 0 [S0 D0]  (just called)"
    ));
    place(&format!("thread 0 > {lost} > segment 0 [S0 D0]"));
}

#[test]
fn the_terminal_tells_of_several_keys() {
    let calls = office("K 0; G 0 0 1; C 0 0; T 0 0 1; T 0 0 0");
    let text = traced(&calls);
    let stack = "segment 0 [S0; D1 taken in step 17, D0 taken in step 18]\n";
    assert!(text.contains(stack), "{text}");
}

fn drawn(calls: &str) -> String {
    let mut out = Vec::new();
    page::write("Withdrawn", &[], explained(calls), &mut out).expect("a vector takes it");
    String::from_utf8(out).expect("text")
}

/// The section of a step.
fn section(page: &str, place: usize) -> &str {
    let start = page.find(&format!("id=\"step-{place}\"")).expect("a step");
    let length = page[start..].find("</section>").expect("an end");
    &page[start..start + length]
}

const STRUCK: &str = "<code>S0</code><span class=\"taken\"><code class=\"gone\">D0</code>\
                      <i>taken in step\u{a0}19</i></span>";

#[test]
fn the_page_strikes_it_out() {
    let calls = format!("{}; A 0 2 4; R 0; G 0 0 0; C 0 0; E 0", office(TAKEN));
    let page = drawn(&calls);
    let open = format!("<li><b>segment\u{a0}0</b><div class=\"keys\">{STRUCK}</div></li>");
    // At the T in three open calls of two threads, and then in those of thread 0.
    for (place, times) in [
        (18, 0),
        (19, 3),
        (20, 2),
        (21, 1),
        (22, 0),
        (23, 1),
        (24, 0),
    ] {
        let count = section(&page, place).matches(&open).count();
        assert_eq!(count, times, "{place}\n{}", section(&page, place));
    }
    let taken = section(&page, 19);
    for part in [
        "It is withdrawn from\u{a0}2 open calls of thread\u{a0}0 and an open call of \
         thread\u{a0}1.</p>",
        "<b>thread\u{a0}0</b>",
        "<b>thread\u{a0}1</b>",
        "<li><b>segment\u{a0}1</b><div class=\"keys\"><code>S1</code><code>D0</code></div></li>",
        "<h3>So it holds</h3><div class=\"keys\"><code>U0</code><code>R0</code>\
         <code>S0</code></div>",
        "<h3>So it holds</h3><div class=\"keys\"><code>U1</code><code>R1</code><code>S0</code>\
         <code>S1</code><code>D0</code></div>",
    ] {
        assert!(taken.contains(part), "{part}\n{taken}");
    }
}

/// In the box of a call that is no longer open it isn't among what was just given
/// back.
#[test]
fn the_page_strikes_it_out_in_a_call_that_was_left() {
    let calls = format!("{}; R 0; G 0 0 0; C 0 0; E 0", office(TAKEN));
    let page = drawn(&calls);
    let taken = "<span class=\"taken\"><code class=\"gone\">D0</code>\
                 <i>taken in step\u{a0}19</i></span>";
    let left = format!(
        "<li class=\"left\"><b>segment\u{a0}0 <em>just left</em></b><div class=\"keys\">\
         <code>S0</code><i>still held</i>{taken}</div></li>"
    );
    assert!(section(&page, 20).contains(&left), "{}", section(&page, 20));
    let closed = "<em>closed</em></b><div class=\"keys\"><code class=\"gone\">S0</code>";
    let last = section(&page, 23);
    for part in [
        format!("{closed}{taken}</div></li>"),
        format!("{closed}<code class=\"gone\">D0</code></div></li>"),
    ] {
        assert_eq!(last.matches(&part).count(), 1, "{part}\n{last}");
    }
}

#[test]
fn the_page_tells_why() {
    let calls = office("C 0 0; T 0 0 0; A 0 2 4; A 0 2 2");
    let page = drawn(&calls);
    let shut = "<p class=\"against\">D0 is missing: it was taken from segment\u{a0}0 in \
                step\u{a0}15, so this thread&#39;s open call of it hands it over no more, but a \
                new call of segment\u{a0}1 would</p>";
    assert!(section(&page, 16).contains(shut), "{}", section(&page, 16));
    let opened = "<p class=\"from\">D0 taken from segment\u{a0}0 in step\u{a0}15</p>";
    assert!(
        section(&page, 17).contains(opened),
        "{}",
        section(&page, 17)
    );
}

/// The style strikes out what has the class.
#[test]
fn the_class_is_struck_out() {
    let page = drawn(&office("A 0 2 4"));
    let style = page.lines().find(|line| line.contains(".taken) > .gone {"));
    let struck = style.is_some_and(|line| line.contains("text-decoration: line-through;"));
    assert!(struck, "{style:?}");
}

/// As many calls as fit, in which a thread with 16 open calls loses a key again and
/// again.
#[test]
fn the_page_of_keys_taken_again_and_again_is_modest() {
    let older = vec!["C 0 1"; 15].join("; ");
    let turns = vec!["C 0 0; T 0 0 0; G 0 0 0; R 0"; 1_800].join("; ");
    let calls = office(&format!("{older}; {turns}"));
    let page = drawn(&calls);
    assert_eq!(page.matches("<section ").count(), 14 + 15 + 4 * 1_800);
    // Each step that took it stands in the page once.
    assert_eq!(page.matches("<i>taken in step\u{a0}30</i>").count(), 1);
    assert!(page.len() < 10_000_000, "{} bytes", page.len());
}

/// An open call as the calls and answers tell it: its segment, the list that it
/// found, and when it was made.
#[derive(Clone)]
struct Made {
    segment: u16,
    found: Vec<Key>,
    step: usize,
}

/// What was accepted so far.
#[derive(Default)]
struct Told {
    lists: BTreeMap<u16, Vec<Key>>,
    open: BTreeMap<u16, Vec<Made>>,
    /// Every T: its segment, key and step.
    takes: Vec<(u16, Key, usize)>,
}

impl Told {
    fn accept(&mut self, call: &Call, answer: u16, step: usize) {
        let key = Key::Defined(Defined(call.c));
        match call.letter {
            b'N' => {
                self.lists
                    .insert(answer, vec![Key::Segment(Segment(answer))]);
            }
            b'G' => self.lists.get_mut(&call.b).expect("a list").push(key),
            b'T' => {
                let list = self.lists.get_mut(&call.b).expect("a list");
                list.retain(|listed| *listed != key);
                self.takes.push((call.b, key, step));
            }
            b'C' => {
                let made = Made {
                    segment: call.b,
                    found: self.lists[&call.b].clone(),
                    step,
                };
                self.open.entry(call.a).or_default().push(made);
            }
            b'R' => {
                self.open.entry(call.a).or_default().pop();
            }
            b'E' => {
                self.open.remove(&call.a);
            }
            _ => {}
        }
    }

    /// The step that took a key from a call.
    fn taken_in(&self, made: &Made, key: Key) -> Option<usize> {
        let mut takes = self.takes.iter();
        let took = takes.find(|(segment, taken, step)| {
            *segment == made.segment && *taken == key && *step > made.step
        });
        took.map(|(_, _, step)| *step)
    }

    /// A call as [`shown`] has it.
    fn shown(&self, made: &Made) -> String {
        let found = made.found.iter();
        let taken = found.filter_map(|key| Some((self.taken_in(made, *key)?, *key)));
        let mut taken: Vec<(usize, Key)> = taken.collect();
        taken.sort_by_key(|(step, _)| *step);
        let is_taken = |key: &&Key| taken.iter().any(|(_, taken)| taken == *key);
        let kept = made.found.iter().filter(|key| !is_taken(key));
        let kept: Vec<Key> = kept.copied().collect();
        let taken = taken.iter().map(|(step, key)| format!(" -{key}@{step}"));
        let taken: String = taken.collect();
        format!("{}: {}{taken}", made.segment, shown_keys(&kept))
    }

    fn stack(&self, thread: u16) -> Vec<String> {
        let open = self.open.get(&thread).map_or(&[][..], Vec::as_slice);
        open.iter().map(|made| self.shown(made)).collect()
    }

    /// The threads with an open call from which this step took a key.
    fn losing(&self, step: usize) -> Vec<u16> {
        let loses = |made: &Made| {
            let mut found = made.found.iter();
            found.any(|key| self.taken_in(made, *key) == Some(step))
        };
        let threads = self.open.iter();
        let losing = threads.filter(|(_, calls)| calls.iter().any(loses));
        losing.map(|(thread, _)| *thread).collect()
    }

    /// Whether a key was taken from an open call of a thread.
    fn was_taken(&self, thread: u16, key: Key) -> bool {
        let open = self.open.get(&thread).map_or(&[][..], Vec::as_slice);
        open.iter()
            .any(|made| made.found.contains(&key) && self.taken_in(made, key).is_some())
    }
}

/// Whether each missing key's reason, and each barred one's that lets a lock open,
/// tells of a T exactly where one took it from the thread. Counts both.
fn compare_reasons(step: &Step, told: &Told, seen: &mut BTreeMap<(&str, bool), usize>) {
    let Some(judgement) = &step.judgement else {
        return;
    };
    for product in judgement.locks.iter().flat_map(|tried| &tried.products) {
        for literal in product.literals.iter().filter(|literal| !literal.is_held()) {
            let key = literal.literal.key();
            let taken = told.was_taken(judgement.thread.0, key);
            let (kind, says) = match literal.literal {
                Literal::Plain(_) => {
                    let reason = literal.in_words();
                    ("missing", reason.contains(": it was taken from segment "))
                }
                Literal::Barred(_) => {
                    let reason = product.sources();
                    ("barred", reason.contains(&format!("{key} taken from ")))
                }
            };
            assert_eq!(says, taken, "step {}: {key}", step.place);
            *seen.entry((kind, taken)).or_default() += 1;
        }
    }
}

#[test]
fn random_lists() {
    let mut random = Random::new(5);
    let (mut stacks, mut losers, mut left) = (0, 0, 0);
    let mut reasons = BTreeMap::new();
    for list in 0..300 {
        let records = withdrawals::list(&mut random);
        let entries = records.iter().map(|record| Entry::from(borrowed(record)));
        let mut told = Told::default();
        for (step, record) in steps::explain(entries).zip(&records) {
            let place = step.place;
            assert_eq!(step.disagreement, None, "{list}, {place}");
            compare_reasons(&step, &told, &mut reasons);
            let newest = told.stack(record.a).pop();
            if let Ok(answer) = step.answer {
                told.accept(record, answer, place);
            }
            for thread in step.thread.iter().chain(&step.losing) {
                let right = told.stack(thread.number);
                stacks += usize::from(right.iter().any(|call| call.contains('@')));
                assert_eq!(stack(thread), right, "{list}, {place}");
                if let Change::Left(call) = &thread.change {
                    left += usize::from(!call.taken.is_empty());
                    assert_eq!(Some(shown(call)), newest, "{list}, {place}");
                }
            }
            let losing: Vec<u16> = step.losing.iter().map(|thread| thread.number).collect();
            assert_eq!(losing, told.losing(place), "{list}, {place}");
            losers += losing.len();
        }
    }
    assert!(
        stacks > 1_000 && losers > 500 && left > 50,
        "{stacks}, {losers}, {left}"
    );
    let kinds = ["barred", "missing"].map(|kind| [(kind, false), (kind, true)]);
    assert!(reasons.keys().eq(kinds.as_flattened()), "{reasons:?}");
    assert!(reasons.values().all(|count| *count > 500), "{reasons:?}");
}
