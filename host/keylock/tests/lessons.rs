//! The lessons: their expected answers are the proved guard's, the reference's
//! and those of a small guard. Each of five broken guards is caught by its own
//! lesson and by no other, and each of four more by its own trap. In another four
//! one thread disturbs another, which lesson 8 shows, and which is seen too where
//! the lines of the other are struck. Three mistake who edits, which lesson 9 shows
//! and no other. Five mistake from which open calls a key is withdrawn, which lesson
//! 10 shows and no other. A last five name another lock where several open, which
//! lesson 11 shows and no other.

mod faults;

use faults::{Fault, Guard};
use keylock::answer::Answer;
use keylock::edits;
use keylock::text::{self, Text};
use rotundaaloe::{Field, Letter, Record};
use std::fs;
use std::path::{Path, PathBuf};

/// The lesson for each fault, in the order of [`Fault::FIVE`].
const LESSONS: [&str; 5] = [
    "1-way-down.txt",
    "2-off-route.txt",
    "3-return.txt",
    "4-twice.txt",
    "5-dropped-lock.txt",
];
const ALL_FIVE: &str = "6-five-faults.txt";
const TRAPS: &str = "7-traps.txt";
const NEIGHBOURS: &str = "8-neighbours.txt";
const WINDOWS: &str = "9-two-windows.txt";
const WITHDRAWN: &str = "10-withdrawn.txt";
const TIGHTEST: &str = "11-tightest.txt";
const ROUTE: &str = "route.txt";

fn path(name: &str) -> PathBuf {
    Path::new(env!("CARGO_MANIFEST_DIR"))
        .join("../../lessons")
        .join(name)
}

fn written(name: &str) -> String {
    fs::read_to_string(path(name)).unwrap_or_else(|error| panic!("{name}: {error}"))
}

fn read(text: &str) -> Text {
    text::parse(text.as_bytes()).unwrap_or_else(|mistakes| panic!("{mistakes:?} in:\n{text}"))
}

fn lesson(name: &str) -> Text {
    read(&written(name))
}

/// The places of the calls that a guard answers otherwise than expected, with
/// its answers.
fn differences(text: &Text, mut call: impl FnMut(&Record) -> Answer) -> Vec<(usize, Answer)> {
    let answers = text.calls().map(|(line, record)| {
        let expected = line.expected.expect("a lesson expects every answer");
        (expected, call(&record))
    });
    let places = answers.enumerate();
    places
        .filter(|(_, (expected, given))| expected != given)
        .map(|(place, (_, given))| (place, given))
        .collect()
}

fn by_the_proved_guard(text: &Text) -> Vec<(usize, Answer)> {
    let mut guard = rotundaaloe::Guard::new();
    differences(text, |record| guard.call(record).into())
}

fn by_the_reference(text: &Text) -> Vec<(usize, Answer)> {
    let mut guard = reference::guard::Guard::new();
    differences(text, |record| {
        match guard.call(record.letter, record.a, record.b, record.c, record.text) {
            Ok(answer) => Answer::Ok(answer),
            Err(refusal) => Answer::No {
                refusal: refusal.number() as u16,
                second: refusal.second(),
            },
        }
    })
}

fn by_the_small_guard(text: &Text) -> Vec<(usize, Answer)> {
    faulty(text, None)
}

fn faulty(text: &Text, fault: Option<Fault>) -> Vec<(usize, Answer)> {
    let mut guard = Guard::with(fault);
    differences(text, |record| small(&mut guard, record))
}

fn small(guard: &mut Guard, record: &Record) -> Answer {
    match guard.call(record) {
        Ok(answer) => Answer::Ok(answer),
        Err((refusal, second)) => Answer::No {
            refusal: refusal as u16,
            second,
        },
    }
}

/// The lessons in the folder, all of them.
fn names() -> Vec<&'static str> {
    let names: Vec<&str> = LESSONS
        .into_iter()
        .chain([ALL_FIVE, TRAPS, NEIGHBOURS, WINDOWS, WITHDRAWN])
        .chain([TIGHTEST, ROUTE])
        .collect();
    let folder = fs::read_dir(path("")).expect("the lessons");
    let texts = folder.filter(|entry| {
        let entry = entry.as_ref().expect("an entry").path();
        entry
            .extension()
            .is_some_and(|extension| extension == "txt")
    });
    assert_eq!(texts.count(), names.len(), "a lesson is not in the list");
    names
}

#[test]
fn every_lesson_says_in_three_lines_what_it_catches() {
    for name in names() {
        assert_eq!(lesson(name).introduction.len(), 3, "{name}");
    }
}

#[test]
fn every_lesson_starts_a_thread_before_its_edits() {
    for name in names() {
        assert_eq!(edits::note(&lesson(name)), None, "{name}");
    }
}

#[test]
fn the_proved_guard_answers_as_expected() {
    for name in names() {
        assert_eq!(by_the_proved_guard(&lesson(name)), [], "{name}");
    }
}

#[test]
fn the_reference_answers_as_expected() {
    for name in names() {
        assert_eq!(by_the_reference(&lesson(name)), [], "{name}");
    }
}

/// So what a broken one answers otherwise is its fault.
#[test]
fn the_small_guard_without_a_fault_answers_as_expected() {
    for name in names() {
        assert_eq!(by_the_small_guard(&lesson(name)), [], "{name}");
    }
}

#[test]
fn each_fault_is_caught_by_its_own_lesson_alone() {
    for (fault, own) in Fault::FIVE.into_iter().zip(LESSONS) {
        let mut caught = Vec::new();
        for name in LESSONS {
            if let Some((place, answer)) = faulty(&lesson(name), Some(fault)).first() {
                println!("{fault:?}: caught by {name} at place {place}, where it answers {answer}");
                caught.push(name);
            }
        }
        assert_eq!(caught, [own], "{fault:?}");
    }
}

/// The places of the calls whose comment begins with these words, with the rest
/// of it.
fn announced(text: &Text, words: &str) -> Vec<(usize, String)> {
    let places = text.lines.iter().enumerate();
    places
        .filter_map(|(place, line)| {
            let rest = line.comment.as_deref()?.strip_prefix(words)?;
            Some((place, rest.to_string()))
        })
        .collect()
}

/// The places of a lesson at which a guard with the fault differs, with its
/// answers.
fn caught(name: &str, fault: Fault) -> Vec<(usize, String)> {
    let given = faulty(&lesson(name), Some(fault)).into_iter();
    let given: Vec<(usize, String)> = given
        .map(|(place, answer)| (place, answer.to_string()))
        .collect();
    for (place, answer) in &given {
        println!("{fault:?}: caught by {name} at place {place}, where it answers {answer}");
    }
    given
}

/// A guard with the fault differs at one line, the one that says so, with the
/// answer that stands there.
#[track_caller]
fn gives_itself_away(name: &str, fault: Fault, words: &str) {
    let text = lesson(name);
    let given = caught(name, fault);
    assert_eq!(given.len(), 1, "{fault:?}: {given:?}");
    assert_eq!(given, announced(&text, words), "{fault:?}");
}

#[test]
fn all_five_are_caught_in_the_sixth_lesson() {
    for (fault, number) in Fault::FIVE.into_iter().zip(1..) {
        let words = format!("a guard with fault {number} answers ");
        gives_itself_away(ALL_FIVE, fault, &words);
    }
}

#[test]
fn all_four_are_caught_in_the_traps_of_the_seventh() {
    for (fault, number) in Fault::TRAPS.into_iter().zip(1..) {
        let words = format!("a guard in trap {number} answers ");
        gives_itself_away(TRAPS, fault, &words);
    }
}

/// The four of lesson 8, with the words that announce each.
fn neighbours() -> impl Iterator<Item = (Fault, String)> {
    let words = (1..).map(|number| format!("a guard with fault {number} answers "));
    Fault::NEIGHBOURS.into_iter().zip(words)
}

#[test]
fn all_four_are_caught_beside_a_neighbour_in_the_eighth() {
    for (fault, words) in neighbours() {
        gives_itself_away(NEIGHBOURS, fault, &words);
    }
}

/// In the lessons 1 to 5 a thread has no neighbour.
#[test]
fn none_of_these_four_shows_in_the_first_five() {
    for name in LESSONS {
        for fault in Fault::NEIGHBOURS {
            assert_eq!(faulty(&lesson(name), Some(fault)), [], "{name}: {fault:?}");
        }
    }
}

/// The threads of lesson 8 that call.
const JANUARY: u16 = 1;
const FEBRUARY: u16 = 2;

/// Lesson 8 without the C, R and A lines of all threads but one.
fn struck_but_for(one: u16) -> Text {
    let text = lesson(NEIGHBOURS);
    let struck = text.calls().filter_map(|(line, record)| {
        let is_struck = b"CRA".contains(&record.letter) && record.a != one;
        is_struck.then_some(line.number)
    });
    let struck: Vec<usize> = struck.collect();
    let written = written(NEIGHBOURS);
    let left = (1..).zip(written.lines());
    let left = left.filter(|(number, _)| !struck.contains(number));
    let left: Vec<&str> = left.map(|(_, line)| line).collect();
    read(&left.join("\n"))
}

#[test]
fn all_answers_that_are_left_stay() {
    for guard in [by_the_proved_guard, by_the_reference, by_the_small_guard] {
        for one in [JANUARY, FEBRUARY] {
            let left = struck_but_for(one);
            assert!(left.calls().count() < lesson(NEIGHBOURS).calls().count());
            assert_eq!(guard(&left), []);
        }
    }
}

/// Whether field a of a letter's call names a thread.
fn names_a_thread(letter: u8) -> bool {
    let letter = Letter::of(letter).expect("a call's letter");
    letter.fields().first() == Some(&Field::Thread)
}

/// What the small guard answers to the one thread's own calls.
fn answers_to(one: u16, text: &Text, fault: Option<Fault>) -> Vec<Answer> {
    let mut guard = Guard::with(fault);
    let answers = text.calls().map(|(_, record)| {
        let own = names_a_thread(record.letter) && record.a == one;
        (own, small(&mut guard, &record))
    });
    answers
        .filter_map(|(own, answer)| own.then_some(answer))
        .collect()
}

/// So the answers that must stay are of every kind that a check has.
#[test]
fn january_is_granted_barred_without_a_way_in_and_full() {
    let answers = answers_to(JANUARY, &lesson(NEIGHBOURS), None);
    let answers: Vec<String> = answers.iter().map(Answer::to_string).collect();
    for answer in ["ok 2", "no 14 3", "no 15 0", "no 10 0"] {
        assert!(answers.iter().any(|given| given == answer), "{answer}");
    }
}

fn is_disturbed(one: u16, fault: Option<Fault>) -> bool {
    let whole = answers_to(one, &lesson(NEIGHBOURS), fault);
    whole != answers_to(one, &struck_but_for(one), fault)
}

/// The one is the thread at whose line the fault is caught.
#[test]
fn each_of_the_four_lets_a_neighbour_disturb() {
    for (fault, words) in neighbours() {
        let text = lesson(NEIGHBOURS);
        let (place, _) = announced(&text, &words)[0];
        let (_, caught) = text.calls().nth(place).expect("its call");
        assert!(is_disturbed(caught.a, Some(fault)), "{fault:?}");
    }
}

/// Neither where there is no fault, nor with those of the other lessons.
#[test]
fn no_other_guard_lets_a_neighbour_disturb() {
    let others = Fault::FIVE.into_iter().chain(Fault::TRAPS);
    let others = others.chain(Fault::WINDOWS).chain(Fault::WITHDRAWALS);
    let others = others.chain(Fault::CHOICES);
    for fault in others.map(Some).chain([None]) {
        for one in [JANUARY, FEBRUARY] {
            assert!(!is_disturbed(one, fault), "{fault:?}: thread {one}");
        }
    }
}

#[test]
fn all_three_are_caught_between_two_windows_in_the_ninth() {
    for (fault, number) in Fault::WINDOWS.into_iter().zip(1..) {
        let words = format!("a guard with fault {number} answers ");
        gives_itself_away(WINDOWS, fault, &words);
    }
}

/// In the other lessons the accepted edits are one user's, in one window.
#[test]
fn none_of_these_three_shows_elsewhere() {
    for name in names().into_iter().filter(|name| *name != WINDOWS) {
        for fault in Fault::WINDOWS {
            assert_eq!(faulty(&lesson(name), Some(fault)), [], "{name}: {fault:?}");
        }
    }
}

/// Nobody calls there, so the others answer rightly.
#[test]
fn none_of_the_others_shows_in_the_ninth() {
    let others = Fault::FIVE.into_iter().chain(Fault::TRAPS);
    for fault in others.chain(Fault::NEIGHBOURS) {
        assert_eq!(faulty(&lesson(WINDOWS), Some(fault)), [], "{fault:?}");
    }
}

#[test]
fn all_five_are_caught_while_calls_are_open_in_the_tenth() {
    let words = |number: usize| format!("a guard with fault {number} answers ");
    let faults = Fault::WITHDRAWALS.into_iter().zip(1..);
    for (fault, number) in faults.skip(1) {
        gives_itself_away(WITHDRAWN, fault, &words(number));
    }
    // The first leaves the key wherever the next three do, and in one more place,
    // which comes before them.
    let text = lesson(WITHDRAWN);
    let lines = (1..=4).flat_map(|number| announced(&text, &words(number)));
    let lines: Vec<(usize, String)> = lines.collect();
    assert_eq!(caught(WITHDRAWN, Fault::KeepsTheTaken), lines);
    assert!(lines.len() == 4 && lines.is_sorted(), "{lines:?}");
}

/// In the other lessons no key is taken.
#[test]
fn none_of_these_five_shows_elsewhere() {
    for name in names().into_iter().filter(|name| *name != WITHDRAWN) {
        for fault in Fault::WITHDRAWALS {
            assert_eq!(faulty(&lesson(name), Some(fault)), [], "{name}: {fault:?}");
        }
    }
}

#[test]
fn all_five_are_caught_where_several_locks_open_in_the_eleventh() {
    let words = |number: usize| format!("a guard with fault {number} answers ");
    let faults = Fault::CHOICES.into_iter().zip(1..);
    for (fault, number) in faults.skip(1) {
        gives_itself_away(TIGHTEST, fault, &words(number));
    }
    // The first names the lowest at a call and at an access.
    let text = lesson(TIGHTEST);
    let lines = announced(&text, &words(1));
    assert_eq!(caught(TIGHTEST, Fault::NamesTheLowestGrant), lines);
    let letters = lines.iter().map(|(place, _)| {
        let (_, record) = text.calls().nth(*place).expect("its call");
        record.letter
    });
    assert!(letters.eq(*b"CA"), "{lines:?}");
}

/// A guard with one of them names another lock, and refuses nothing else.
#[test]
fn none_of_these_five_grants_otherwise() {
    let text = lesson(TIGHTEST);
    for fault in Fault::CHOICES {
        let mut guards = [None, Some(fault)].map(Guard::with);
        for (_, record) in text.calls() {
            let [right, faulty] = guards.each_mut().map(|guard| guard.call(&record));
            let refusal = |answer: faults::Answer| answer.err().map(|(refusal, _)| refusal);
            assert_eq!(refusal(right), refusal(faulty), "{fault:?}");
        }
    }
}

/// In the other lessons no two grant locks open at once, nor two deny locks.
#[test]
fn no_choice_is_made_elsewhere() {
    for name in names().into_iter().filter(|name| *name != TIGHTEST) {
        for fault in Fault::CHOICES {
            assert_eq!(faulty(&lesson(name), Some(fault)), [], "{name}: {fault:?}");
        }
    }
}

#[test]
fn the_route_is_also_a_file() {
    let file = fs::read(path("route.kld")).expect("the file");
    assert!(lesson(ROUTE).journal.as_bytes() == file);
}
