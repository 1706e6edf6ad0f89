//! The lock list: worked examples by hand from document 02, P1.

use rotundaaloe::formula::Key;
use rotundaaloe::formula::Literal::{self, Barred, Plain};
use rotundaaloe::{
    Defined, Guard, Kind, Lock, LockRow, Operations, Refusal, Segment, Thread, User, refusal,
};

const OWNER: User = User(0);
const COLLEAGUE: User = User(1);
/// Not handed out.
const STRANGER: User = User(2);

/// The owner's thread, after the colleague's.
const EDITOR: Thread = Thread(1);

const CODE: Segment = Segment(0);
const SHEET: Segment = Segment(1);
/// Not handed out.
const NOWHERE: Segment = Segment(2);

const BOTH: Operations = Operations::READ.and(Operations::WRITE);

fn u(number: u16) -> Key {
    Key::User(User(number))
}

fn s(number: u16) -> Key {
    Key::Segment(Segment(number))
}

fn d(number: u16) -> Key {
    Key::Defined(Defined(number))
}

fn grants(lock: u16, operations: Operations, keys: &[Literal]) -> LockRow {
    LockRow {
        lock: Lock(lock),
        operations,
        deny: false,
        keys: keys.to_vec(),
    }
}

fn denies(lock: u16, operations: Operations, keys: &[Literal]) -> LockRow {
    LockRow {
        deny: true,
        ..grants(lock, operations, keys)
    }
}

/// What stands in the rows before a listing, in each something else.
fn lent(count: u16) -> Vec<LockRow> {
    let row = |place| denies(900 + place, BOTH, &[Barred(d(place))]);
    (0..count).map(row).collect()
}

/// Users 0 and 1. The first owns code 0 and sheet 1 and made D0 to D3, by thread
/// 1; the second has thread 0.
fn office() -> Guard {
    let mut guard = Guard::new();
    assert_eq!(guard.new_user(), Ok(OWNER));
    assert_eq!(guard.new_user(), Ok(COLLEAGUE));
    assert_eq!(guard.start_thread(COLLEAGUE), Ok(Thread(0)));
    assert_eq!(guard.start_thread(OWNER), Ok(EDITOR));
    assert_eq!(guard.new_segment(EDITOR, Kind::Code), Ok(CODE));
    assert_eq!(guard.new_segment(EDITOR, Kind::Sheet), Ok(SHEET));
    for key in 0..4 {
        assert_eq!(guard.new_key(EDITOR), Ok(Defined(key)));
    }
    guard
}

/// With locks 0 to 2 on the sheet: a product, two, and one that denies.
fn locked_office() -> Guard {
    let mut guard = office();
    let mut lock = |operations, text| guard.add_lock(EDITOR, SHEET, operations, text);
    assert_eq!(lock(Operations::WRITE, "S0&U1"), Ok(Lock(0)));
    assert_eq!(lock(BOTH, "D1&!D0|U0"), Ok(Lock(1)));
    assert_eq!(lock(Operations::READ.denied(), "D2"), Ok(Lock(2)));
    guard
}

/// The rows that the owner sees of it, and a colleague.
fn rows_of_locked_office() -> [Vec<LockRow>; 2] {
    [
        vec![
            grants(0, Operations(4), &[Plain(u(1)), Plain(s(0))]),
            grants(1, Operations(6), &[Barred(d(0)), Plain(d(1))]),
            grants(1, Operations(6), &[Plain(u(0))]),
            denies(2, Operations(2), &[Plain(d(2))]),
        ],
        vec![
            grants(0, Operations(4), &[]),
            grants(1, Operations(6), &[]),
            denies(2, Operations(2), &[]),
        ],
    ]
}

#[test]
fn an_owner_sees_products_and_a_colleague_sees_locks() {
    let guard = locked_office();
    let [owners, colleagues] = rows_of_locked_office();
    assert_eq!(guard.locks(OWNER, SHEET), Ok(owners));
    assert_eq!(guard.locks(COLLEAGUE, SHEET), Ok(colleagues));
}

/// Just as many as the user needs, or more.
#[test]
fn lent_rows_beyond_the_last_stay() {
    let guard = locked_office();
    for (user, rows) in [OWNER, COLLEAGUE].into_iter().zip(rows_of_locked_office()) {
        for beyond in [0, 1, 9] {
            let before = lent(rows.len() as u16 + beyond);
            let mut given = before.clone();
            let filled = guard.list_locks(user, SHEET, &mut given);
            assert_eq!(filled, Ok(rows.len()));
            assert_eq!(given[..rows.len()], rows);
            assert_eq!(given[rows.len()..], before[rows.len()..]);
        }
    }
}

/// The refusal of a listing, which must leave every row.
#[track_caller]
fn refused(guard: &Guard, user: User, segment: Segment, count: u16) -> refusal::ListLocks {
    let mut given = lent(count);
    let answer = guard.list_locks(user, segment, &mut given);
    assert_eq!(given, lent(count));
    answer.expect_err("a refusal")
}

/// Four rows for the owner, three for a colleague.
#[test]
fn too_few_rows_are_judged_by_what_the_user_needs() {
    let guard = locked_office();
    for (user, needed) in [(OWNER, 4), (COLLEAGUE, 3)] {
        for count in 0..needed {
            let refusal = refused(&guard, user, SHEET, count);
            assert_eq!(refusal, refusal::ListLocks::TooFewRows);
        }
    }
}

#[test]
fn the_user_comes_before_the_segment_and_the_rows_last() {
    let guard = locked_office();
    for count in [0, 9] {
        for segment in [CODE, SHEET, NOWHERE, Segment(u16::MAX)] {
            let refusal = refused(&guard, STRANGER, segment, count);
            assert_eq!(refusal, refusal::ListLocks::UnknownUser);
        }
        for segment in [NOWHERE, Segment(64), Segment(u16::MAX)] {
            let refusal = refused(&guard, COLLEAGUE, segment, count);
            assert_eq!(refusal, refusal::ListLocks::NoSegment);
        }
    }
    let unknown = Err(refusal::Locks::UnknownUser);
    assert_eq!(guard.locks(STRANGER, NOWHERE), unknown);
    assert_eq!(guard.locks(OWNER, NOWHERE), Err(refusal::Locks::NoSegment));
    assert_eq!(Guard::new().locks(OWNER, CODE), unknown);
}

#[test]
fn nineteen_in_words() {
    let refusal = Refusal::from(refusal::ListLocks::TooFewRows);
    assert_eq!(refusal, Refusal::TooFewRows);
    assert_eq!((refusal.number(), refusal.second()), (19, 0));
    assert_eq!(refusal.to_string(), "too few rows (19)");
}

#[test]
fn a_segment_without_locks_needs_no_row() {
    let guard = locked_office();
    for user in [OWNER, COLLEAGUE] {
        assert_eq!(guard.list_locks(user, CODE, &mut []), Ok(0));
        assert_eq!(guard.locks(user, CODE), Ok(vec![]));
    }
}

/// U, R, S, D and then by number, however the text has them. A code segment is
/// listed too, and a row has no more keys than a product.
#[test]
fn a_rows_keys_are_in_the_products_order() {
    let mut guard = office();
    let text = "D3&!D1&S1&S0&!R0&U1";
    let lock = guard.add_lock(EDITOR, CODE, Operations::EXECUTE.denied(), text);
    assert_eq!(lock, Ok(Lock(0)));
    let keys = [
        Plain(u(1)),
        Barred(Key::Thread(Thread(0))),
        Plain(s(0)),
        Plain(s(1)),
        Barred(d(1)),
        Plain(d(3)),
    ];
    let row = denies(0, Operations::EXECUTE, &keys);
    assert_eq!(guard.locks(OWNER, CODE), Ok(vec![row]));
    let blank = denies(0, Operations::EXECUTE, &[]);
    assert_eq!(guard.locks(COLLEAGUE, CODE), Ok(vec![blank]));
}

/// The numbers of the others stay, and a new lock comes last.
#[test]
fn a_dropped_lock_is_gone() {
    let mut guard = locked_office();
    assert_eq!(guard.drop_lock(EDITOR, Lock(1)), Ok(2));
    assert_eq!(guard.add_lock(EDITOR, SHEET, BOTH, "!U1"), Ok(Lock(3)));
    let [mut rows, _] = rows_of_locked_office();
    rows.drain(1..3);
    rows.push(grants(3, BOTH, &[Barred(u(1))]));
    assert_eq!(guard.locks(OWNER, SHEET), Ok(rows));
}

/// Eight products in one lock, and one in each of eight.
#[test]
fn as_many_rows_as_a_list_ever_needs() {
    let mut guard = office();
    let text = "D3|!D3|D2|!D2|D1|!D1|D0|!D0";
    assert_eq!(guard.add_lock(EDITOR, SHEET, BOTH, text), Ok(Lock(0)));
    let keys = [3, 2, 1, 0].map(|n| [Plain(d(n)), Barred(d(n))]);
    let rows = keys
        .as_flattened()
        .iter()
        .map(|key| grants(0, BOTH, &[*key]));
    assert_eq!(guard.locks(OWNER, SHEET), Ok(rows.collect()));
    assert_eq!(
        guard.locks(COLLEAGUE, SHEET),
        Ok(vec![grants(0, BOTH, &[])])
    );
    assert_eq!(guard.drop_lock(EDITOR, Lock(0)), Ok(8));
    for number in 1..=8 {
        let lock = guard.add_lock(EDITOR, SHEET, Operations::READ, "U0");
        assert_eq!(lock, Ok(Lock(number)));
    }
    let rows = (1..=8).map(|number| grants(number, Operations::READ, &[]));
    assert_eq!(guard.locks(COLLEAGUE, SHEET), Ok(rows.collect()));
}
