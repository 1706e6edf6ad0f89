//! Which of several grant locks that open answers, in the step view: written down by
//! hand from document 02, P6, and on random lists worked out from the lock texts.

#[expect(dead_code, reason = "other tests use the rest")]
mod lesson;

use keylock::steps::{self, Judgement, Step, Tried, shown_keys};
use keylock::{page, trace};
use lesson::explained;
use std::cmp::Reverse;
use std::collections::{BTreeMap, BTreeSet};
use testing::random::Random;

/// Thread 0 is user 0's and thread 1 user 1's. Part 0 hands over S0 and D0, part 1 S1,
/// and nobody D1. Segment 2 is a sheet. The next lock is 2 and the next step 12.
const OFFICE: &str = "U; U; S 0; S 1; N 0 0; N 0 0; N 0 1; K 0; K 0; G 0 0 0; \
                      L 0 0 1 U0|U1; L 0 1 1 U0|U1";

/// Thread 0 holds U0, R0, S0, D0 and S1.
const CALLS: &str = "C 0 0; C 0 1";

/// The office with these locks for write on the sheet, from lock 2 on, and these calls.
fn office(locks: &[&str], calls: &str) -> String {
    let locks = locks.iter().map(|text| format!("; L 0 2 4 {text}"));
    let locks: String = locks.collect();
    format!("{OFFICE}{locks}; {calls}")
}

fn given(step: &Step) -> String {
    step.given().to_string()
}

/// The reason of the last call, which is answered so.
#[track_caller]
fn reason(calls: &str, answer: &str) -> String {
    let steps = explained(calls);
    let last = steps.last().expect("a step");
    assert_eq!(given(last), answer, "{calls}");
    last.reason.clone()
}

/// The reason of thread 0's save, with open calls of both parts, under these locks.
#[track_caller]
fn saved(locks: &[&str], answer: &str) -> String {
    reason(&office(locks, &format!("{CALLS}; A 0 2 4")), answer)
}

fn judgement<'a>(step: &'a Step) -> &'a Judgement {
    step.judgement.as_ref().expect("locks decide it")
}

#[test]
fn the_tighter_one_answers() {
    assert_eq!(
        saved(&["U0", "S0&S1"], "ok 3"),
        "Lock 3 opens with two keys, lock 2 with one: the tighter one answers. \
         Thread 0 holds S0 and S1."
    );
    assert_eq!(
        saved(&["S0&S1", "U0"], "ok 2"),
        "Lock 2 opens with two keys, lock 3 with one: the tighter one answers. \
         Thread 0 holds S0 and S1."
    );
    assert_eq!(
        saved(&["U0&S0", "U0&R0&S0&S1&D0&!D1"], "ok 3"),
        "Lock 3 opens with six keys, lock 2 with two: the tighter one answers. \
         Thread 0 holds U0, R0, S0, S1 and D0 but not D1."
    );
}

#[test]
fn of_equally_tight_ones_the_lower_answers() {
    assert_eq!(
        saved(&["U0&S0", "S0&S1"], "ok 2"),
        "Locks 2 and 3 open with two keys each: the lower one answers. \
         Thread 0 holds U0 and S0."
    );
    assert_eq!(
        saved(&["S1", "S0"], "ok 2"),
        "Locks 2 and 3 open with one key each: the lower one answers. Thread 0 holds S1."
    );
}

#[test]
fn several_locks() {
    for (locks, answer, why) in [
        (
            &["U0", "R0", "U0&R0"][..],
            "ok 4",
            "Lock 4 opens with two keys, locks 2 and 3 with one each: the tightest one answers.",
        ),
        (
            &["U0", "U0&R0", "U0&R0&S0"],
            "ok 4",
            "Lock 4 opens with three keys, lock 3 with two, lock 2 with one: \
             the tightest one answers.",
        ),
        (
            &["U0", "U0&R0&S0&S1&D0", "R0", "U0&R0&S0&S1", "U0&R0", "S0"],
            "ok 3",
            "Lock 3 opens with five keys, lock 5 with four, lock 6 with two, \
             locks 2, 4 and 7 with one each: the tightest one answers.",
        ),
        (
            &["U0", "R0", "S0"],
            "ok 2",
            "Locks 2, 3 and 4 open with one key each: the lowest one answers.",
        ),
        (
            &["U0", "U0&R0", "U0&S0"],
            "ok 3",
            "Locks 3 and 4 open with two keys each, lock 2 with one: \
             of the tightest the lower one answers.",
        ),
        (
            &["U0", "U0&R0", "U0&S0", "R0&S0", "S0"],
            "ok 3",
            "Locks 3, 4 and 5 open with two keys each, locks 2 and 6 with one each: \
             of the tightest the lowest one answers.",
        ),
        // Up to four are named.
        (
            &["U0", "R0", "S0", "S1"],
            "ok 2",
            "Locks 2, 3, 4 and 5 open with one key each: the lowest one answers.",
        ),
        (
            &["U0", "R0", "S0", "S1", "D0"],
            "ok 2",
            "5 locks open with one key each: the lowest one answers.",
        ),
        (
            &["U0", "R0", "S0", "S1", "D0", "U0&R0", "U0&S0"],
            "ok 7",
            "Locks 7 and 8 open with two keys each, 5 locks with one each: \
             of the tightest the lower one answers.",
        ),
    ] {
        let reason = saved(locks, answer);
        let holds = reason.strip_prefix(why).expect(&reason);
        assert!(holds.starts_with(" Thread 0 holds "), "{reason}");
    }
}

/// The others stay shut, deny, or are for another operation or another sheet.
#[test]
fn one_lock_needs_no_comparing() {
    let alone = "Lock 2 opens: thread 0 holds U0.";
    assert_eq!(saved(&["U0"], "ok 2"), alone);
    assert_eq!(saved(&["U0", "U1&R0&S0"], "ok 2"), alone);
    assert_eq!(saved(&["U0", "R0&!S0"], "ok 2"), alone);
    for other in [
        "L 0 2 12 S0&D1",
        "L 0 2 2 U0&S0",
        "L 0 2 10 U0&S0",
        "N 0 1; L 0 3 4 U0&S0",
        "L 0 2 4 U0&S0; D 0 3",
    ] {
        let calls = office(&["U0"], &format!("{other}; {CALLS}; A 0 2 4"));
        assert_eq!(reason(&calls, "ok 2"), alone, "{other}");
    }
}

#[test]
fn a_barred_key_counts_like_a_plain_one() {
    assert_eq!(
        saved(&["S0", "!U1&!D1"], "ok 3"),
        "Lock 3 opens with two keys, lock 2 with one: the tighter one answers. \
         Thread 0 doesn't hold U1 or D1."
    );
    assert_eq!(
        saved(&["!R1", "S0"], "ok 2"),
        "Locks 2 and 3 open with one key each: the lower one answers. \
         Thread 0 doesn't hold R1."
    );
    assert_eq!(
        saved(&["U0&S0", "S1&!U1&!D1"], "ok 3"),
        "Lock 3 opens with three keys, lock 2 with two: the tighter one answers. \
         Thread 0 holds S1 but not U1 or D1."
    );
}

#[test]
fn a_product_that_does_not_open_counts_for_nothing() {
    assert_eq!(
        saved(&["U0&S0", "S1|U0&S0&S1&D1"], "ok 2"),
        "Lock 2 opens with two keys, lock 3 with one: the tighter one answers. \
         Thread 0 holds U0 and S0."
    );
    assert_eq!(
        saved(&["S1", "U0&S0&!D0|R0"], "ok 2"),
        "Locks 2 and 3 open with one key each: the lower one answers. Thread 0 holds S1."
    );
}

/// A key that stands in a product twice is one key, and the keys of several products
/// aren't added up.
#[test]
fn keys_are_counted_once_and_in_one_product() {
    assert_eq!(
        saved(&["U0&S0", "S1&S1&S1"], "ok 2"),
        "Lock 2 opens with two keys, lock 3 with one: the tighter one answers. \
         Thread 0 holds U0 and S0."
    );
    assert_eq!(
        saved(&["U0&S0", "U0|R0|S0|S1"], "ok 2"),
        "Lock 2 opens with two keys, lock 3 with one: the tighter one answers. \
         Thread 0 holds U0 and S0."
    );
}

/// The longest that opens, and of equally long ones the first.
#[test]
fn which_product_decides() {
    for (text, holds) in [
        ("U0|S0&S1", "holds S0 and S1"),
        ("S0&S1|U0", "holds S0 and S1"),
        ("U0|R0&S0|S0&S1", "holds R0 and S0"),
        ("U0|S0&S1|R0&S0", "holds S0 and S1"),
        ("U0&S0&D1|R0|S0&!D1", "holds S0 but not D1"),
        ("U0|R0", "holds U0"),
    ] {
        let alone = format!("Lock 2 opens: thread 0 {holds}.");
        assert_eq!(saved(&[text], "ok 2"), alone, "{text}");
    }
    assert_eq!(
        saved(&["R0", "U0|S0&S1|D0&R0"], "ok 3"),
        "Lock 3 opens with two keys, lock 2 with one: the tighter one answers. \
         Thread 0 holds S0 and S1."
    );
}

#[test]
fn how_tight_each_lock_is() {
    let locks = ["U0", "U0|S0&S1", "U1&R0", "!D1&U0&S0|U1&R0&S0&S1"];
    let calls = office(&locks, &format!("L 0 2 12 D1|U1&S0; {CALLS}; A 0 2 4"));
    let steps = explained(&calls);
    let tried = &judgement(steps.last().expect("a step")).locks;
    let tightness: Vec<(u16, usize)> = tried
        .iter()
        .map(|tried| (tried.lock.number, tried.tightness()))
        .collect();
    assert_eq!(tightness, [(2, 1), (3, 2), (4, 0), (5, 3), (6, 0)]);
    let longest: Vec<Option<usize>> = tried.iter().map(Tried::longest).collect();
    assert_eq!(longest, [Some(0), Some(1), None, Some(0), None]);
}

/// A call is told of in the past: it hands over S1, with which another lock would be
/// tighter still.
#[test]
fn a_call_is_answered_by_the_tightest_lock_too() {
    let calls = format!("{OFFICE}; L 0 1 1 U0&S0; L 0 1 1 U0&S0&S1; C 0 0; C 0 1; C 0 1");
    let steps = explained(&calls);
    let [first, second] = [15, 16].map(|place| &steps[place]);
    assert_eq!([given(first), given(second)], ["ok 2", "ok 3"]);
    assert_eq!(
        first.reason,
        "Lock 2 opened with two keys, lock 1 with one: the tighter one answers. \
         Thread 0 held U0 and S0."
    );
    assert_eq!(
        second.reason,
        "Lock 3 opened with three keys, lock 2 with two, lock 1 with one: \
         the tightest one answers. Thread 0 held U0, S0 and S1."
    );
    let calls = format!("{OFFICE}; L 0 1 1 R0; C 0 1");
    assert_eq!(
        reason(&calls, "ok 1"),
        "Locks 1 and 2 opened with one key each: the lower one answers. Thread 0 held U0."
    );
}

/// The locks are the same, and what is held changes.
#[test]
fn the_answer_follows_the_keys() {
    let calls = "A 0 2 4; C 0 0; A 0 2 4; C 0 1; A 0 2 4; T 0 0 0; A 0 2 4; R 0; R 0; A 0 2 4; \
                 A 1 2 4";
    let calls = office(&["U0|U1", "U0&S0", "S0&S1&D0"], calls);
    let steps = explained(&calls);
    let saves = steps
        .iter()
        .filter(|step| step.written().starts_with("A "))
        .map(given);
    let saves: Vec<String> = saves.collect();
    assert_eq!(saves, ["ok 2", "ok 3", "ok 4", "ok 3", "ok 2", "ok 2"]);
}

#[test]
fn a_dropped_lock_answers_no_more() {
    let calls = office(
        &["U0", "U0&S0", "R0&S0&S1"],
        &format!("{CALLS}; A 0 2 4; D 0 4; A 0 2 4; D 0 3; A 0 2 4"),
    );
    let steps = explained(&calls);
    let saves = [17, 19, 21].map(|place| given(&steps[place]));
    assert_eq!(saves, ["ok 4", "ok 3", "ok 2"]);
    assert_eq!(steps[21].reason, "Lock 2 opens: thread 0 holds U0.");
}

#[test]
fn a_taken_key_that_the_tightest_lock_bars() {
    let calls = office(&["U0", "U0&!D0"], "C 0 0; T 0 0 0; A 0 2 4");
    assert_eq!(
        reason(&calls, "ok 3"),
        "Lock 3 opens with two keys, lock 2 with one: the tighter one answers. \
         Thread 0 holds U0 but not D0. D0 was taken from segment 0 in step 15."
    );
}

#[test]
fn names_stand_there() {
    let calls = office(&["U0", "S0&S1"], &format!("{CALLS}; A 0 2 4"));
    let mut entries = lesson::entries(&calls);
    entries[2].note = Some("thread 0, the May closing".to_string());
    let last = steps::explain(entries).last().expect("a step");
    assert_eq!(
        last.reason,
        "Lock 3 opens with two keys, lock 2 with one: the tighter one answers. \
         The May closing (thread 0) holds S0 and S1."
    );
}

/// Whatever the lengths, and however many grant locks open.
#[test]
fn the_lowest_deny_lock_is_named() {
    let locks = "L 0 2 12 R0; L 0 2 12 U0&S0&S1; L 0 2 12 U1&R0; L 0 2 4 U0&S0&S1&D0";
    let calls = office(&["U0"], &format!("{locks}; {CALLS}; A 0 2 4"));
    assert_eq!(
        reason(&calls, "no 14 3"),
        "Lock 3 opens: thread 0 holds R0. It denies, and a deny beats every grant."
    );
    let calls = format!("{calls}; D 0 3; A 0 2 4");
    assert_eq!(
        reason(&calls, "no 14 4"),
        "Lock 4 opens: thread 0 holds U0, S0 and S1. It denies, and a deny beats every grant."
    );
}

/// Of a deny lock, too, the longest product that opens is told.
#[test]
fn which_product_of_a_deny_lock_is_told() {
    let calls = office(
        &["U0"],
        &format!("L 0 2 12 R0|U1&S0&S1|S0&S1|U0&S0; {CALLS}; A 0 2 4"),
    );
    assert_eq!(
        reason(&calls, "no 14 3"),
        "Lock 3 opens: thread 0 holds S0 and S1. It denies, and a deny beats every grant."
    );
}

#[test]
fn other_refusals_compare_nothing() {
    let calls = office(&["S0", "S0&S1"], "A 0 2 4");
    assert_eq!(
        reason(&calls, "no 15 0"),
        "None of the 2 locks that grant write on segment 2 opens. \
         Nearest is lock 2: S0 is missing: segment 0 hands it over, \
         and this thread has no open call of it."
    );
    let calls = vec!["C 0 0"; 17].join("; ");
    let calls = format!("{OFFICE}; L 0 0 1 U0&R0; {calls}");
    assert_eq!(
        reason(&calls, "no 10 0"),
        "A lock opens, but thread 0 has 16 open calls, and no more fit."
    );
    let steps = explained(&calls);
    let last = judgement(steps.last().expect("a step"));
    assert!(last.locks.iter().all(|tried| last.rank(tried).is_none()));
}

/// Why each lock answers or doesn't.
fn ranks(locks: &[&str], answer: &str) -> Vec<Option<String>> {
    let calls = office(locks, &format!("{CALLS}; A 0 2 4"));
    let steps = explained(&calls);
    let last = steps.last().expect("a step");
    assert_eq!(given(last), answer, "{calls}");
    let judgement = judgement(last);
    let locks = judgement.locks.iter();
    locks.map(|tried| judgement.rank(tried)).collect()
}

#[test]
fn how_the_locks_rank() {
    let said = |rank: &str| Some(rank.to_string());
    assert_eq!(
        ranks(&["U0", "S0&S1", "U1&R0&S0"], "ok 3"),
        [
            said("With one key it is looser"),
            said("With two keys it is the tightest: it answers"),
            None,
        ]
    );
    assert_eq!(
        ranks(&["U0", "S0&S1", "R0&S0", "U0&R0"], "ok 3"),
        [
            said("With one key it is looser"),
            said("With two keys it is one of the tightest, and the lowest of them: it answers"),
            said("With two keys it is as tight, but its number is higher"),
            said("With two keys it is as tight, but its number is higher"),
        ]
    );
    assert_eq!(
        ranks(&["S0", "S1"], "ok 2"),
        [
            said("With one key it is one of the tightest, and the lowest of them: it answers"),
            said("With one key it is as tight, but its number is higher"),
        ]
    );
    assert_eq!(ranks(&["U0", "U1&R0&S0"], "ok 2"), [None, None]);
    // A deny lock decides, and the two that grant aren't compared.
    let calls = office(&["U0", "U0&S0"], &format!("L 0 2 12 R0; {CALLS}; A 0 2 4"));
    let steps = explained(&calls);
    let last = judgement(steps.last().expect("a step"));
    assert!(last.locks.iter().all(|tried| last.rank(tried).is_none()));
}

#[test]
fn the_terminal_counts_the_keys() {
    let locks = ["U0", "U0|S0&S1", "D1", "U0&R0"];
    let calls = office(
        &locks,
        &format!("{CALLS}; A 0 2 4; E 1; S 1; C 2 0; A 2 2 4"),
    );
    let mut out = Vec::new();
    trace::write(&[], explained(&calls), false, &mut out).expect("a vector takes it");
    let text = String::from_utf8(out).expect("text");
    for line in [
        "lock    2 grants write if U0: opens with one key",
        "lock    3 grants write if U0|S0&S1: opens with two keys and decides",
        "lock    4 grants write if D1: stays shut",
        "lock    5 grants write if U0&R0: opens with two keys",
        "why     Locks 3 and 5 open with two keys each, lock 2 with one: \
         of the tightest the lower one answers. Thread 0 holds S0 and S1.",
        // Where one lock opens, nothing is counted.
        "lock    0 grants execute if U0|U1: opens and decides",
    ] {
        let is_shown = text.lines().any(|shown| shown.trim_start() == line);
        assert!(is_shown, "{line}\n{text}");
    }
}

/// The last step's section of a page.
fn section(calls: &str) -> String {
    let steps = explained(calls);
    let last = steps.len() - 1;
    let mut out = Vec::new();
    page::write("Tightest", &[], steps, &mut out).expect("a vector takes it");
    let page = String::from_utf8(out).expect("text");
    let start = page.find(&format!("id=\"step-{last}\"")).expect("a step");
    page[start..].to_string()
}

/// In words under each lock that opens, the one that answers on top.
#[test]
fn the_page_shows_which_lock_answers() {
    let locks = ["U0", "D1", "U0|S0&S1", "U0&R0"];
    let section = section(&office(&locks, &format!("{CALLS}; A 0 2 4")));
    let parts = [
        "<p class=\"why\">Locks\u{a0}4 and\u{a0}5 open with two keys each, lock\u{a0}2 with one: \
         of the tightest the lower one answers. Thread\u{a0}0 holds S0 and S1.</p>",
        "<div class=\"lock opens decides\"><p><b>Lock 4 opens and grants</b> write if \
         <code>U0|<wbr>S0&amp;<wbr>S1</code></p><p class=\"rank\">With two keys it is one of the \
         tightest, and the lowest of them: it answers</p>",
        "<div class=\"lock opens minor\"><p><b>Lock 2 opens.</b> It grants write if \
         <code>U0</code></p><p class=\"rank\">With one key it is looser</p>",
        "<div class=\"lock minor\"><p><b>Lock 3 stays shut.</b> It grants write if \
         <code>D1</code></p><ul>",
        "<div class=\"lock opens minor\"><p><b>Lock 5 opens.</b> It grants write if \
         <code>U0&amp;<wbr>R0</code></p><p class=\"rank\">With two keys it is as tight, but \
         its number is higher</p>",
    ];
    let places = parts.map(|part| {
        let found = section.find(part);
        found.unwrap_or_else(|| panic!("{part}\n{section}"))
    });
    assert!(places.is_sorted(), "{places:?}\n{section}");
    assert_eq!(section.matches("it answers").count(), 1);
}

/// Of the deciding lock the longest product that opens says where its keys are from.
#[test]
fn the_page_shows_which_product_decides() {
    let section = section(&office(&["U0|S0&S1|R0&D0"], &format!("{CALLS}; A 0 2 4")));
    let sources = "<p class=\"from\">S0 from segment\u{a0}0, S1 from segment\u{a0}1</p>";
    assert!(section.contains(sources), "{section}");
    assert_eq!(section.matches("<p class=\"from\">").count(), 1);
    assert!(!section.contains("class=\"rank\""), "{section}");
}

/// A random list: two users, a thread each, three parts that hand over a key or two,
/// and a sheet and a part under locks of a few short products.
struct Drawn {
    calls: Vec<String>,
}

const KEYS: [&str; 9] = ["U0", "U1", "R0", "R1", "S0", "S1", "S2", "D0", "D1"];
/// What the locks stand on: a part and a sheet.
const PART: u16 = 2;
const SHEET: u16 = 3;

impl Drawn {
    fn list(random: &mut Random) -> String {
        let office = "U; U; S 0; S 1; N 0 0; N 0 0; N 0 0; N 0 1; K 0; K 0; G 0 0 0; G 0 1 1; \
                      L 0 0 1 U0|U1; L 0 1 1 U0|U1";
        let mut drawn = Drawn {
            calls: vec![office.to_string()],
        };
        let mut next_lock = 2;
        for _ in 0..random.between(2, 5) {
            drawn.lock(random, SHEET);
            drawn.lock(random, PART);
            next_lock += 2;
        }
        for _ in 0..random.between(10, 40) {
            let (thread, key) = (random.below(2), random.below(2));
            match random.below(12) {
                0 => drawn.lock(random, SHEET),
                1 => drawn.add(format!("D 0 {}", random.between(2, next_lock))),
                2 => drawn.add(format!("T 0 {} {key}", random.below(2))),
                3 => drawn.add(format!("G 0 {} {key}", random.below(2))),
                4 => drawn.add(format!("R {thread}")),
                5 | 6 => drawn.add(format!("C {thread} {}", random.below(2))),
                7 => drawn.add(format!("C {thread} {PART}")),
                _ => drawn.add(format!("A {thread} {SHEET} {}", random.pick(&[2, 4]))),
            }
        }
        drawn.calls.join("; ")
    }

    fn add(&mut self, call: String) {
        self.calls.push(call);
    }

    /// One or two products of one to four different keys.
    fn lock(&mut self, random: &mut Random, segment: u16) {
        let products = random.between(1, 2);
        let products: Vec<String> = (0..products).map(|_| product(random)).collect();
        let operations = match segment {
            SHEET => random.pick(&[2, 4, 6, 6]),
            _ => 1,
        };
        let denies = if random.one_in(6) { 8 } else { 0 };
        self.add(format!(
            "L 0 {segment} {} {}",
            operations + denies,
            products.join("|")
        ));
    }
}

fn product(random: &mut Random) -> String {
    let count = random.between(1, 4);
    let mut keys = BTreeSet::new();
    while keys.len() < count {
        keys.insert(random.pick(&KEYS));
    }
    let literals = keys.iter().map(|key| match random.one_in(3) {
        true => format!("!{key}"),
        false => key.to_string(),
    });
    literals.collect::<Vec<_>>().join("&")
}

/// A lock as its call tells it.
struct Told {
    segment: u16,
    operations: u16,
    text: String,
}

impl Told {
    /// The most keys of a product that opens, worked out from the text.
    fn tightness(&self, held: &[&str]) -> usize {
        let products = self.text.split('|').map(|product| {
            let mut literals = product.split('&');
            let opens = literals.all(|literal| match literal.strip_prefix('!') {
                Some(barred) => !held.contains(&barred),
                None => held.contains(&literal),
            });
            usize::from(opens) * product.split('&').count()
        });
        products.max().unwrap_or(0)
    }

    /// The most keys of any product.
    fn length(&self) -> usize {
        let products = self.text.split('|');
        let lengths = products.map(|product| product.split('&').count());
        lengths.max().unwrap_or(0)
    }
}

/// Each C and A is answered by the lock that the texts of the standing locks lead to,
/// and its reason compares locks exactly where several grant locks open.
#[test]
fn random_lists() {
    let mut random = Random::new(6);
    let mut seen: BTreeMap<&str, usize> = BTreeMap::new();
    for list in 0..3_000 {
        let calls = Drawn::list(&mut random);
        let mut standing: BTreeMap<u16, Told> = BTreeMap::new();
        for step in explained(&calls) {
            let (record, place) = (step.entry.record, step.place);
            if let Some(judgement) = &step.judgement {
                let shown = shown_keys(&judgement.keys);
                let held: Vec<&str> = shown.split(' ').collect();
                let tried = standing.iter().filter(|(_, lock)| {
                    lock.segment == judgement.segment.0
                        && lock.operations & judgement.operation != 0
                });
                let tried: Vec<(u16, usize, &Told)> = tried
                    .map(|(number, lock)| (*number, lock.tightness(&held), lock))
                    .collect();
                for ((number, tightness, _), shown) in tried.iter().zip(&judgement.locks) {
                    let told = (shown.lock.number, shown.tightness());
                    assert_eq!(told, (*number, *tightness), "{list}, {place}");
                }
                let open = tried.iter().filter(|(_, tightness, _)| *tightness > 0);
                let (deny, grant): (Vec<_>, Vec<_>) =
                    open.partition(|(_, _, lock)| lock.operations & 8 == 8);
                let best = grant
                    .iter()
                    .max_by_key(|(number, tightness, _)| (*tightness, Reverse(*number)));
                let right = match (deny.first(), best) {
                    (Some((number, ..)), _) => format!("no 14 {number}"),
                    (None, None) => "no 15 0".to_string(),
                    (None, Some((number, ..))) => format!("ok {number}"),
                };
                let is_full = given(&step) == "no 10 0" && best.is_some() && deny.is_empty();
                assert!(is_full || given(&step) == right, "{list}, {place}");
                let compares = step.reason.contains(" answers. ");
                let several = step.answer.is_ok() && grant.len() > 1;
                assert_eq!(compares, several, "{list}, {place}: {}", step.reason);
                let mut see = |kind, is: bool| *seen.entry(kind).or_default() += usize::from(is);
                see("a deny lock", deny.len() > 1 && !grant.is_empty());
                if let (true, Some((number, tightness, lock))) = (several, best) {
                    let ties = grant.iter().filter(|other| other.1 == *tightness).count();
                    see("a call", record.letter == b'C');
                    see("not the lowest", *number != grant[0].0);
                    see("a tie", ties > 1);
                    see("a tie, not the lowest", ties > 1 && *number != grant[0].0);
                    see("barred", lock.text.contains('!'));
                    let longer = |other: &&&(u16, usize, &Told)| other.2.length() > *tightness;
                    see(
                        "a longer one that is shut",
                        grant.iter().any(|other| longer(&&other)),
                    );
                }
            }
            let Ok(answer) = step.answer else { continue };
            match record.letter {
                b'L' => {
                    let told = Told {
                        segment: record.b,
                        operations: record.c,
                        text: String::from_utf8(record.text.to_vec()).expect("a text"),
                    };
                    standing.insert(answer, told);
                }
                b'D' => {
                    standing.remove(&record.b);
                }
                _ => {}
            }
        }
    }
    println!("{seen:?}");
    assert!(
        seen.len() == 7 && seen.values().all(|count| *count > 50),
        "{seen:?}"
    );
}
