//! The limits are where the guard refuses, and what is left counts down to them.

use rotundaaloe::formula::{Issued, compile};
use rotundaaloe::journal::{self, MARK};
use rotundaaloe::limits::*;
use rotundaaloe::raw::Cells;
use rotundaaloe::{
    Guard, Journal, Kind, Left, Operations, Record, Thread, User, VERSION, raw, refusal,
};

/// How often something is accepted, until it isn't.
fn accepted<T, E>(mut ask: impl FnMut() -> Result<T, E>) -> usize {
    (0..).take_while(|_| ask().is_ok()).count()
}

const OWNER: User = User(0);
const EDITOR: Thread = Thread(0);

fn guard_with_an_editor() -> Guard {
    let mut guard = Guard::new();
    assert_eq!(guard.new_user(), Ok(OWNER));
    assert_eq!(guard.start_thread(OWNER), Ok(EDITOR));
    guard
}

#[test]
fn the_version_is_that_of_the_proved_functions() {
    let number = raw::version();
    let parts = [number / 10_000, number / 100 % 100, number % 100];
    assert_eq!(parts.map(|part| part.to_string()).join("."), VERSION);
    assert_eq!(VERSION, "0.2.0");
}

#[test]
fn numbers_that_are_handed_out() {
    let mut guard = Guard::new();
    assert_eq!(accepted(|| guard.new_user()), MOST_USERS);
    assert_eq!(accepted(|| guard.start_thread(OWNER)), MOST_THREADS);
    assert_eq!(
        accepted(|| guard.new_segment(EDITOR, Kind::Code)),
        MOST_SEGMENTS
    );
    assert_eq!(accepted(|| guard.new_key(EDITOR)), MOST_KEYS);
}

#[test]
fn key_lists_and_open_calls() {
    let mut guard = guard_with_an_editor();
    let segment = guard.new_segment(EDITOR, Kind::Code).unwrap();
    let given = accepted(|| {
        let key = guard.new_key(EDITOR).unwrap();
        guard.give_key(EDITOR, segment, key)
    });
    assert_eq!(1 + given, MOST_LISTED);
    guard
        .add_lock(EDITOR, segment, Operations::EXECUTE, "U0")
        .unwrap();
    assert_eq!(
        accepted(|| guard.call_segment(EDITOR, segment)),
        MOST_OPEN_CALLS
    );
    assert_eq!(guard.depth(EDITOR), Some(MOST_OPEN_CALLS));
}

#[test]
fn formulas() {
    let issued = Issued {
        users: 32,
        ..Issued::default()
    };
    let compiled = |text: &str| compile(text.as_bytes(), issued);
    let joined = |count: usize, joint: &str| {
        let keys: Vec<String> = (0..count).map(|key| format!("U{key}")).collect();
        keys.join(joint)
    };
    let refused = |refusal| Err::<usize, refusal::Compile>(refusal);
    let products = |text: &str| compiled(text).map(|products| products.len());
    assert_eq!(products(&joined(MOST_PRODUCTS, "|")), Ok(MOST_PRODUCTS));
    assert_eq!(
        products(&joined(MOST_PRODUCTS + 1, "|")),
        refused(refusal::Compile::TooWide)
    );
    assert_eq!(products(&joined(MOST_LITERALS, "&")), Ok(1));
    assert_eq!(
        products(&joined(MOST_LITERALS + 1, "&")),
        refused(refusal::Compile::TooWide)
    );
    let deep = |depth: usize| "(".repeat(depth) + "U0" + &")".repeat(depth);
    assert_eq!(products(&deep(MOST_DEPTH)), Ok(1));
    assert_eq!(
        products(&deep(MOST_DEPTH + 1)),
        refused(refusal::Compile::Malformed)
    );
    let long = |bytes: usize| "!".repeat(bytes - 2) + "U0";
    assert_eq!(products(&long(MOST_TEXT)), Ok(1));
    assert_eq!(
        products(&long(MOST_TEXT + 1)),
        refused(refusal::Compile::Malformed)
    );
}

#[test]
fn standing_products_of_a_segment() {
    let mut guard = guard_with_an_editor();
    let sheet = guard.new_segment(EDITOR, Kind::Sheet).unwrap();
    let locks = accepted(|| guard.add_lock(EDITOR, sheet, Operations::READ, "U0"));
    assert_eq!(locks, MOST_PRODUCTS);
}

#[test]
fn journals() {
    let mut journal = Journal::new();
    assert_eq!(journal.as_bytes().len(), JOURNAL_HEAD);
    assert!(journal.as_bytes().starts_with(MARK));
    assert_eq!(journal.as_bytes()[3..5], journal::VERSION.to_le_bytes());
    let records = accepted(|| journal.append(Record::new_user()));
    assert_eq!(records, (JOURNAL_BYTES - JOURNAL_HEAD) / 9);
}

/// Document 01: 65,536 run numbers and as many lock numbers, and those of ended
/// runs and dropped locks are not handed out again.
#[test]
fn threads_and_locks_wear_out() {
    let mut guard = guard_with_an_editor();
    let sheet = guard.new_segment(EDITOR, Kind::Sheet).unwrap();
    let threads = accepted(|| {
        guard
            .start_thread(OWNER)
            .map(|thread| guard.end_thread(thread))
    });
    let locks = accepted(|| {
        let lock = guard.add_lock(EDITOR, sheet, Operations::READ, "U0");
        lock.map(|lock| guard.drop_lock(EDITOR, lock))
    });
    assert_eq!([1 + threads, locks], [MOST_NUMBERS; 2]);
    guard.end_thread(EDITOR).unwrap();
    let left = Left {
        users: 31,
        threads: 0,
        segments: 63,
        keys: 1_024,
        locks: 0,
    };
    assert_eq!(guard.left(), left);
    assert_eq!(guard.threads(), []);
}

#[test]
fn what_is_left_counts_down() {
    let mut guard = Guard::new();
    let new = Left {
        users: 32,
        threads: 65_536,
        segments: 64,
        keys: 1_024,
        locks: 65_536,
    };
    assert_eq!(guard.left(), new);
    guard.new_user().unwrap();
    guard.start_thread(OWNER).unwrap();
    guard.new_key(EDITOR).unwrap();
    guard.new_key(EDITOR).unwrap();
    let sheet = guard.new_segment(EDITOR, Kind::Sheet).unwrap();
    guard
        .add_lock(EDITOR, sheet, Operations::READ, "D1")
        .unwrap();
    for _ in 0..2 {
        let thread = guard.start_thread(OWNER).unwrap();
        guard.end_thread(thread).unwrap();
    }
    let left = Left {
        users: 31,
        threads: 65_533,
        segments: 63,
        keys: 1_022,
        locks: 65_535,
    };
    assert_eq!(guard.left(), left);
    // Any numbers are some state.
    let mut cells = Box::new(Cells::EMPTY);
    cells.registry = [u32::MAX; 8];
    let none = Left {
        users: 0,
        threads: 0,
        segments: 0,
        keys: 0,
        locks: 0,
    };
    assert_eq!(Guard::from_cells(cells).left(), none);
}
