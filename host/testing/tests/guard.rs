//! The reference guard against the worked examples.

use reference::guard::{Answer, Guard, Refusal, check};
use reference::letter::Letter;
use reference::operations::{EXECUTE, WRITE};
use std::collections::BTreeSet;
use testing::calls::outcomes;
use testing::trials::{self, TRIALS};

/// Each letter with an outcome that it came to: a refusal's number, or 0.
type Seen = BTreeSet<(u8, u32)>;

/// A guard that is compared with itself before each refusal.
struct Watched<'a> {
    guard: Guard,
    seen: &'a mut Seen,
}

impl trials::Guard for Watched<'_> {
    fn call(&mut self, letter: u8, [a, b, c]: [u16; 3], text: &[u8]) -> Answer {
        let before = self.guard.clone();
        let answer = self.guard.call(letter, a, b, c, text);
        if answer.is_err() {
            assert!(self.guard == before, "a refusal changes nothing");
        }
        let outcome = answer.map_or_else(Refusal::number, |_| 0);
        self.seen.insert((letter, outcome));
        answer
    }
}

/// Every letter comes to each outcome that it can have.
#[test]
fn worked_examples() {
    let mut seen = Seen::new();
    for (name, trial) in TRIALS {
        println!("{name}");
        let guard = Guard::new();
        let seen = &mut seen;
        trial(&mut Watched { guard, seen });
    }
    for letter in Letter::ALL {
        for outcome in outcomes(letter.byte()) {
            let came = seen.contains(&(letter.byte(), *outcome));
            assert!(came, "{letter:?} never comes to {outcome}");
        }
    }
}

#[test]
fn a_check_is_what_a_call_and_an_access_ask() {
    let mut guard = Guard::new();
    let calls: [(u8, [u16; 3], &[u8]); 7] = [
        (b'U', [0, 0, 0], b""),
        (b'S', [0, 0, 0], b""),
        (b'N', [0, 0, 0], b""),
        (b'N', [0, 1, 0], b""),
        (b'L', [0, 0, 1], b"U0"),
        (b'L', [0, 1, 4], b"S0"),
        (b'L', [0, 1, 12], b"S0&R1"),
    ];
    // R1 is not handed out.
    let accepted = calls.map(|(letter, [a, b, c], text)| guard.call(letter, a, b, c, text).is_ok());
    assert_eq!(accepted, [true, true, true, true, true, true, false]);
    let asked = |guard: &Guard, segment, operation| {
        let thread = guard.thread(0).expect("it is live");
        let segment = guard.known_segment(segment).expect("it is there");
        check(thread, segment, operation).map_err(|refusal| refusal.number())
    };
    assert_eq!(asked(&guard, 1, WRITE), Err(15));
    assert_eq!(asked(&guard, 0, EXECUTE), Ok(0));
    assert_eq!(guard.call_segment(0, 0), Ok(0));
    assert_eq!(asked(&guard, 1, WRITE), Ok(1));
    assert_eq!(guard.add_lock(0, 1, 12, b"S0&R0"), Ok(2));
    assert_eq!(asked(&guard, 1, WRITE), Err(14));
    assert_eq!(guard.return_call(0), Ok(0));
    assert_eq!(asked(&guard, 1, WRITE), Err(15));
}
