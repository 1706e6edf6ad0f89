//! What is counted: scenes of a state, that calls lead to from the empty one,
//! and one call on it or one check.

use crate::checks::{self, Case, LITERALS, PRODUCTS};
use crate::grants::Grants;
use crate::takes::{TAKES, Take};
use compare::guard::Own;
use reference::call::Call;
use reference::journal::Record;
use reference::letter::Letter;
use reference::limits::MAX_LIVE_THREADS;
use reference::operations::{EXECUTE, WRITE};
use testing::calls::{call, lock};

/// One call, or one check, on a state.
pub struct Scene {
    pub name: String,
    /// The calls that lead to the state. Both guards accept them.
    pub before: Vec<Record>,
    pub counted: Counted,
    /// The answer that both must give.
    pub expected: u16,
}

/// A check of a thread's operation on a segment.
#[derive(Clone, Copy)]
pub struct Check {
    pub thread: u16,
    pub segment: u16,
    pub operation: u16,
}

pub enum Counted {
    Check(Check),
    /// A call by its own function.
    Direct(Own, Record),
    /// A call by its letter.
    Entry(Record),
}

/// The products on the segment that the counted C calls. The first fails at its
/// first literal, the second opens.
#[derive(Clone, Copy)]
pub struct Pair {
    pub texts: [&'static str; 2],
}

/// The thread's open call is one of segment 1 and has handed over S1 and, where
/// the products name defined keys, D1 and D2.
pub const PAIRS: [Pair; 3] = [
    Pair {
        texts: ["S0&S1", "U0&S1"],
    },
    Pair {
        texts: ["S0&S1", "S1&!S0"],
    },
    Pair {
        texts: ["D0&D1", "D1&D2"],
    },
];

/// Threads that stand at their own places, 0, 21, 42 and 63.
pub const HOME: [u16; 4] = [0, 21, 42, 63];
/// A thread that stands at the last place, the only one that was free when it
/// started.
pub const AWAY: u16 = 64;

/// The place in the proved guard's array where a scene's thread stands.
pub fn place(thread: u16) -> usize {
    match thread {
        AWAY => 63,
        home => usize::from(home),
    }
}

/// The calls that lead to a state where the thread has called segment 1 and may
/// call segment 2.
fn before_call(pair: Pair, thread: u16) -> Vec<Record> {
    let mut before = vec![call(b'U', 0, 0, 0)];
    before.extend(vec![call(b'S', 0, 0, 0); MAX_LIVE_THREADS]);
    before.extend(vec![call(b'N', 0, 0, 0); 3]);
    before.extend(vec![call(b'K', 0, 0, 0); 3]);
    if pair.texts[0].contains('D') {
        before.extend([call(b'G', 0, 1, 1), call(b'G', 0, 1, 2)]);
    }
    before.push(lock(0, 1, EXECUTE, b"U0"));
    before.extend(pair.texts.map(|text| lock(0, 2, EXECUTE, text.as_bytes())));
    if thread == AWAY {
        before.extend([call(b'E', 63, 0, 0), call(b'S', 0, 0, 0)]);
    }
    before.push(call(b'C', thread, 1, 0));
    before
}

/// The name of a counted C or R, by its own function or by the entry.
pub fn call_name(letter: Letter, entry: bool, pair: Pair, thread: u16) -> String {
    let letter = letter.char();
    let by = if entry { " by its letter" } else { "" };
    let [first, second] = pair.texts;
    format!("{letter}{by}, {first} and {second}, thread {thread}")
}

/// C of a segment whose key list has one key, and R of that call.
fn call_and_return(entry: bool, pair: Pair, thread: u16) -> [Scene; 2] {
    let counted = |call: Call| match (entry, Own::of(call)) {
        (false, Some(own)) => Counted::Direct(own, call.into()),
        _ => Counted::Entry(call.into()),
    };
    let before = before_call(pair, thread);
    let called = Call::CallSegment { thread, segment: 2 };
    let before_return = [before.clone(), vec![called.into()]].concat();
    [
        Scene {
            name: call_name(Letter::CallSegment, entry, pair, thread),
            before,
            counted: counted(called),
            expected: 2,
        },
        Scene {
            name: call_name(Letter::ReturnCall, entry, pair, thread),
            before: before_return,
            counted: counted(Call::ReturnCall { thread }),
            expected: 2,
        },
    ]
}

/// The calls that lead to the state of the twelve: the thread came by the rate
/// loader, segment 0, and by the recalculation, segment 1, and may write the
/// totals, segment 2.
pub fn before_the_twelve() -> Vec<Record> {
    vec![
        call(b'U', 0, 0, 0),
        call(b'S', 0, 0, 0),
        call(b'N', 0, 0, 0),
        call(b'N', 0, 0, 0),
        call(b'N', 0, 1, 0),
        call(b'K', 0, 0, 0),
        call(b'K', 0, 0, 0),
        call(b'G', 0, 0, 0),
        lock(0, 0, EXECUTE, b"U0"),
        lock(0, 1, EXECUTE, b"U0"),
        lock(0, 2, WRITE, b"S0&S1"),
        call(b'C', 0, 0, 0),
        call(b'C', 0, 1, 0),
    ]
}

/// One call of each letter, and its answer.
pub fn the_twelve() -> [(Record, u16); Letter::ALL.len()] {
    [
        (call(Letter::NewUser, 0, 0, 0), 1),
        (call(Letter::StartThread, 0, 0, 0), 1),
        (call(Letter::EndThread, 0, 0, 0), 2),
        (call(Letter::NewSegment, 0, 1, 0), 3),
        (call(Letter::NewKey, 0, 0, 0), 2),
        (call(Letter::GiveKey, 0, 0, 1), 3),
        (call(Letter::TakeKey, 0, 0, 0), 1),
        (lock(0, 2, WRITE, b"S0&S1"), 3),
        (call(Letter::DropLock, 0, 2, 0), 1),
        (call(Letter::CallSegment, 0, 1, 0), 1),
        (call(Letter::ReturnCall, 0, 0, 0), 1),
        (call(Letter::Access, 0, 2, WRITE), 2),
    ]
}

/// The name of one of the twelve, by its own function or by the entry.
pub fn twelve_name(letter: Letter, entry: bool) -> String {
    let by = if entry { "letter" } else { "own function" };
    format!("the twelve: {} by its {by}", letter.char())
}

/// Every scene.
pub fn all() -> Vec<Scene> {
    let mut scenes = Vec::new();
    for case in Case::ALL {
        for depth in case.depths() {
            for m in LITERALS {
                scenes.extend(PRODUCTS.map(|n| checks::scene(case, m, n, *depth)));
            }
        }
    }
    scenes.extend(Grants::ALL.into_iter().flat_map(Grants::scenes));
    for pair in PAIRS {
        for thread in HOME.into_iter().chain([AWAY]) {
            let scene = |entry| call_and_return(entry, pair, thread);
            scenes.extend([false, true].into_iter().flat_map(scene));
        }
    }
    for (record, expected) in the_twelve() {
        let letter = Letter::of(record.letter).expect("a call's letter");
        let direct =
            Own::of_record(&record).map(|own| (Counted::Direct(own, record.clone()), false));
        let entry = (Counted::Entry(record), true);
        scenes.extend(
            direct
                .into_iter()
                .chain([entry])
                .map(|(counted, entry)| Scene {
                    name: twelve_name(letter, entry),
                    before: before_the_twelve(),
                    counted,
                    expected,
                }),
        );
    }
    scenes.extend(TAKES.map(Take::scene));
    scenes
}
