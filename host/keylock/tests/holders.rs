//! The open call that the step view names for a held key: the newest that handed
//! it over, written down by hand from document 02, P3, and on random lists
//! against the history.

#[expect(dead_code, reason = "other tests use the rest")]
mod journals;
#[expect(dead_code, reason = "other tests use the rest")]
mod lesson;

use journals::{borrowed, random_list};
use keylock::steps::{self, Entry, Holder, Literal, Step};
use keylock::{page, trace};
use lesson::explained;
use reference::history::{History, OpenCall};
use reference::{Key, Kind};
use rotundaaloe::formula;
use rotundaaloe::{Defined, Segment, Thread, User};
use std::collections::BTreeMap;
use testing::calls::WORLDS;
use testing::random::Random;

/// Parts 0 and 1 hand over D0, and part 2 doesn't. Sheet 3 is read by who holds
/// D0, and written by who doesn't.
const PARTS: &str = "U; S 0; N 0 0; N 0 0; N 0 0; N 0 1; K 0; G 0 0 0; G 0 1 0; L 0 0 1 U0; \
                     L 0 1 1 U0; L 0 2 1 U0; L 0 3 2 D0; L 0 3 4 !D0";

/// The literals of the locks that a step was tried on.
fn literals<'a>(step: &'a Step<'_>) -> impl Iterator<Item = &'a Literal> {
    let locks = step.judgement.iter().flat_map(|judgement| &judgement.locks);
    let products = locks.flat_map(|tried| &tried.products);
    products.flat_map(|product| &product.literals)
}

/// The last step, which one literal of one lock decides.
#[track_caller]
fn last(calls: &str, given: &str) -> (String, Literal) {
    let steps = explained(calls);
    let step = steps.last().expect("a step");
    assert_eq!(step.given().to_string(), given, "{calls}");
    let literals: Vec<&Literal> = literals(step).collect();
    let [literal] = literals[..] else {
        panic!("{} literals", literals.len());
    };
    (step.reason.clone(), literal.clone())
}

/// The calls of these segments, the oldest first.
fn after(segments: &[u16], access: &str) -> String {
    let calls = segments.iter().map(|segment| format!("; C 0 {segment}"));
    format!("{PARTS}{}; {access}", calls.collect::<String>())
}

fn by(segments: &[u16]) -> Vec<Holder> {
    segments.iter().copied().map(Holder::Call).collect()
}

/// Two parts that hand the key over, each of them once as the newer one.
#[test]
fn the_newer_of_two_parts() {
    for [older, newer] in [[0, 1], [1, 0]] {
        let (_, literal) = last(&after(&[older, newer], "A 0 3 2"), "ok 3");
        assert_eq!(literal.held_by, by(&[newer, older]));
        assert_eq!(literal.place, Some(0));
        assert_eq!(literal.from, Some(format!("segment {newer}")));
        let (reason, _) = last(&after(&[older, newer], "A 0 3 4"), "no 15 0");
        let barred = "D0 is barred, but held: 2 open calls of this thread handed it over, \
                      the newest of segment";
        assert_eq!(reason, format!("{barred} {newer}."));
    }
}

/// Open calls that don't hand the key over count in the place, and aren't named.
#[test]
fn calls_that_do_not_hand_it_over() {
    for [older, newer] in [[0, 1], [1, 0]] {
        let calls = after(&[2, older, 2, newer, 2, 2], "A 0 3 2");
        let (_, literal) = last(&calls, "ok 3");
        assert_eq!(literal.held_by, by(&[newer, older]));
        assert_eq!(literal.place, Some(2));
        assert_eq!(literal.from, Some(format!("segment {newer}")));
        let calls = after(&[2, older, 2, newer, 2], "R 0; R 0; A 0 3 2");
        let (_, literal) = last(&calls, "ok 3");
        assert_eq!(literal.held_by, by(&[older]));
        assert_eq!(literal.place, Some(1));
        assert_eq!(literal.from, Some(format!("segment {older}")));
    }
}

/// A call is tried with the keys before it, and isn't among the open ones,
/// whether it hands the key over too or doesn't.
#[test]
fn the_open_calls_before_a_call() {
    for [called, open] in [[0, 1], [1, 0], [2, 0], [2, 1]] {
        let calls = format!("{PARTS}; D 0 {called}; L 0 {called} 1 D0");
        let calls = format!("{calls}; C 0 {open}; C 0 {called}");
        let (reason, literal) = last(&calls, "ok 5");
        assert_eq!(reason, "Lock 5 opened: thread 0 held D0.");
        assert_eq!(literal.held_by, by(&[open]));
        assert_eq!(literal.place, Some(0));
        assert_eq!(literal.from, Some(format!("segment {open}")));
    }
}

#[test]
fn keys_that_no_open_call_handed_over() {
    for (text, held_by) in [
        ("U0", vec![Holder::Identity]),
        ("R0", vec![Holder::Identity]),
        ("S3", vec![]),
        ("U1", vec![]),
        ("D1", vec![]),
    ] {
        let given = if held_by.is_empty() {
            "no 15 0"
        } else {
            "ok 5"
        };
        let locked = format!("{PARTS}; U; K 0; D 0 3; L 0 3 2 {text}; C 0 0; C 0 1; A 0 3 2");
        let (_, literal) = last(&locked, given);
        assert_eq!((literal.place, literal.from), (None, None), "{text}");
        assert_eq!(literal.held_by, held_by, "{text}");
    }
}

/// On a terminal and on a page.
#[test]
fn it_is_shown() {
    for [older, newer] in [[0, 1], [1, 0]] {
        let calls = format!("{}; A 0 3 4", after(&[older, newer], "A 0 3 2"));
        let mut out = Vec::new();
        trace::write(&[], explained(&calls), false, &mut out).expect("a vector takes it");
        let out = String::from_utf8(out).expect("text");
        let opens = format!("D0: opens, D0 from segment {newer}\n");
        assert!(out.contains(&opens), "{out}");
        let shut = format!("handed it over, the newest of segment {newer}\n");
        assert!(out.contains(&shut), "{out}");

        let mut out = Vec::new();
        page::write("Parts", &[], explained(&calls), &mut out).expect("a vector takes it");
        let out = String::from_utf8(out).expect("text");
        let opens = format!("<p class=\"from\">D0 from segment\u{a0}{newer}</p>");
        assert!(out.contains(&opens), "{out}");
        let shut = format!("handed it over, the newest of segment\u{a0}{newer}</p>");
        assert!(out.contains(&shut), "{out}");
        let oldest = format!("the newest of segment\u{a0}{older}");
        assert!(!out.contains(&oldest), "{out}");
    }
}

/// The reference's key.
fn for_reference(key: formula::Key) -> Key {
    let (kind, number) = match key {
        formula::Key::User(User(number)) => (Kind::User, number),
        formula::Key::Thread(Thread(number)) => (Kind::Thread, number),
        formula::Key::Segment(Segment(number)) => (Kind::Segment, number),
        formula::Key::Defined(Defined(number)) => (Kind::Defined, number),
    };
    Key { kind, number }
}

/// Which open call is named, and whether open calls of other segments handed the
/// key over too.
type Named = (&'static str, bool);

/// Compares what is named with the thread's open calls before the step, the
/// newest last.
#[track_caller]
fn compare(literal: &Literal, open_calls: &[OpenCall]) -> Named {
    let key = for_reference(literal.literal.key());
    let newest_first = open_calls.iter().rev().enumerate();
    let handing: Vec<(usize, u16)> = newest_first
        .filter(|(_, call)| call.list.contains(&key))
        .map(|(place, call)| (place, call.segment))
        .collect();
    let Some((place, newest)) = handing.first().copied() else {
        assert_eq!(literal.place, None, "{key:?}");
        return ("none", false);
    };
    let segments: Vec<u16> = handing.iter().map(|(_, segment)| *segment).collect();
    assert_eq!(literal.place, Some(place), "{key:?}");
    assert_eq!(literal.held_by, by(&segments), "{key:?}");
    assert_eq!(literal.from, Some(format!("segment {newest}")));
    let named = match place {
        0 => "the newest",
        _ => "an older one",
    };
    let several = segments.iter().any(|segment| *segment != newest);
    (named, several)
}

#[test]
fn random_lists_against_the_history() {
    let mut random = Random::new(11);
    let mut seen = BTreeMap::new();
    for (world, lists) in WORLDS.iter().zip([100, 3_200, 10, 20, 30]) {
        for _ in 0..lists {
            let records = random_list(&mut random, world);
            let entries = records.iter().map(|record| Entry::from(borrowed(record)));
            let mut history = History::new();
            for (step, record) in steps::explain(entries).zip(&records) {
                let thread = step.judgement.as_ref().map(|judgement| judgement.thread);
                let thread = thread.and_then(|thread| history.thread(thread.0));
                let open_calls = thread.map_or(&[][..], |thread| &thread.open_calls);
                for literal in literals(&step) {
                    *seen.entry(compare(literal, open_calls)).or_insert(0) += 1;
                }
                history.feed(record, step.answer.ok());
            }
        }
    }
    let named = [
        ("an older one", false),
        ("an older one", true),
        ("none", false),
        ("the newest", false),
        ("the newest", true),
    ];
    assert!(seen.keys().eq(&named), "{seen:?}");
    assert!(seen.values().all(|count| *count > 50), "{seen:?}");
}
