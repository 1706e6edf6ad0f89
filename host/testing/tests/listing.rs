//! Listings worked out by hand from document 02, P1, for the reference guard and
//! for the history.

use reference::Key;
use reference::Kind::{self, Defined, Segment, Thread, User};
use reference::formula::Literal;
use reference::guard::{Guard, Refusal};
use reference::history::History;
use reference::journal::Record;
use reference::listing::Row;
use testing::calls;

const OWNER: u16 = 0;
const COLLEAGUE: u16 = 1;
/// Not handed out.
const STRANGER: u16 = 2;

/// Their threads.
const OWNERS_THREAD: u16 = 1;
const COLLEAGUES_THREAD: u16 = 0;

const CODE: u16 = 0;
const SHEET: u16 = 1;
/// Not handed out.
const NOWHERE: u16 = 2;

fn plain(kind: Kind, number: u16) -> Literal {
    let key = Key { kind, number };
    Literal { key, barred: false }
}

fn barred(kind: Kind, number: u16) -> Literal {
    let key = Key { kind, number };
    Literal { key, barred: true }
}

fn grants(lock: u16, operations: u16, literals: &[Literal]) -> Row {
    Row {
        lock,
        operations,
        denies: false,
        literals: literals.to_vec(),
    }
}

fn denies(lock: u16, operations: u16, literals: &[Literal]) -> Row {
    Row {
        denies: true,
        ..grants(lock, operations, literals)
    }
}

/// What stands in the rows before a listing, in each something else.
fn lent(count: usize) -> Vec<Row> {
    let row = |place| denies(900 + place, 7, &[barred(Defined, place)]);
    (0..count as u16).map(row).collect()
}

struct Office {
    guard: Guard,
    history: History,
}

impl Office {
    /// Users 0 and 1, with threads 1 and 0. The first owns code 0 and sheet 1 and
    /// made D0 to D3.
    fn new() -> Office {
        let guard = Guard::new();
        let history = History::new();
        let mut office = Office { guard, history };
        office.ok(calls::call(b'U', 0, 0, 0), OWNER);
        office.ok(calls::call(b'U', 0, 0, 0), COLLEAGUE);
        office.ok(calls::call(b'S', COLLEAGUE, 0, 0), COLLEAGUES_THREAD);
        office.ok(calls::call(b'S', OWNER, 0, 0), OWNERS_THREAD);
        office.ok(calls::call(b'N', OWNERS_THREAD, 0, 0), CODE);
        office.ok(calls::call(b'N', OWNERS_THREAD, 1, 0), SHEET);
        for key in 0..4 {
            office.ok(calls::call(b'K', OWNERS_THREAD, 0, 0), key);
        }
        office
    }

    /// With locks 0 to 2 on the sheet, of which lock 1 has two products.
    fn with_three_locks() -> Office {
        let mut office = Office::new();
        office.lock(SHEET, 4, "S0&U1", 0);
        office.lock(SHEET, 6, "D1&!D0|U0", 1);
        office.lock(SHEET, 2, "D2", 2);
        office
    }

    /// The call must be accepted with this answer.
    #[track_caller]
    fn ok(&mut self, record: Record, answer: u16) {
        let given = calls::told(&mut self.guard, &mut self.history, &record);
        assert_eq!(given, Ok(answer), "{record:?}");
    }

    #[track_caller]
    fn lock(&mut self, segment: u16, operations: u16, text: &str, number: u16) {
        let record = calls::lock(OWNERS_THREAD, segment, operations, text.as_bytes());
        self.ok(record, number);
    }

    #[track_caller]
    fn drop_lock(&mut self, lock: u16, products: u16) {
        self.ok(calls::call(b'D', OWNERS_THREAD, lock, 0), products);
    }

    /// A listing must fill these rows, with just as many lent or more, and leave
    /// the rest.
    #[track_caller]
    fn shows(&self, user: u16, segment: u16, rows: &[Row]) {
        for beyond in 0..3 {
            let mut given = lent(rows.len() + beyond);
            let answer = self.guard.list(user, segment, &mut given);
            assert_eq!(answer, Ok(rows.len()));
            let (filled, untouched) = given.split_at(rows.len());
            assert_eq!(filled, rows);
            assert_eq!(untouched, &lent(rows.len() + beyond)[rows.len()..]);
        }
        let told = self.history.listing(user, segment);
        assert_eq!(told.as_deref(), Some(rows));
    }

    /// A listing with this many rows lent must be refused with this number, and
    /// leave every row.
    #[track_caller]
    fn refuses(&self, user: u16, segment: u16, count: usize, number: u32) {
        let mut given = lent(count);
        let answer = self.guard.list(user, segment, &mut given);
        assert_eq!(answer.map_err(Refusal::number), Err(number));
        assert_eq!(given, lent(count));
    }
}

#[test]
fn an_owner_sees_products_and_a_colleague_sees_locks() {
    let office = Office::with_three_locks();
    office.shows(
        OWNER,
        SHEET,
        &[
            grants(0, 4, &[plain(User, 1), plain(Segment, 0)]),
            grants(1, 6, &[barred(Defined, 0), plain(Defined, 1)]),
            grants(1, 6, &[plain(User, 0)]),
            grants(2, 2, &[plain(Defined, 2)]),
        ],
    );
    let rows = [grants(0, 4, &[]), grants(1, 6, &[]), grants(2, 2, &[])];
    office.shows(COLLEAGUE, SHEET, &rows);
}

#[test]
fn a_deny_lock_says_so_beside_its_operations() {
    let mut office = Office::new();
    office.lock(SHEET, 10, "D0", 0);
    office.lock(SHEET, 12, "!(U0|S0)", 1);
    office.lock(SHEET, 4, "U1", 2);
    office.lock(SHEET, 14, "!D0|D1", 3);
    office.shows(
        OWNER,
        SHEET,
        &[
            denies(0, 2, &[plain(Defined, 0)]),
            denies(1, 4, &[barred(User, 0), barred(Segment, 0)]),
            grants(2, 4, &[plain(User, 1)]),
            denies(3, 6, &[barred(Defined, 0)]),
            denies(3, 6, &[plain(Defined, 1)]),
        ],
    );
    office.shows(
        COLLEAGUE,
        SHEET,
        &[
            denies(0, 2, &[]),
            denies(1, 4, &[]),
            grants(2, 4, &[]),
            denies(3, 6, &[]),
        ],
    );
}

/// The first lock is document 01's example of four products.
#[test]
fn a_code_segments_locks_are_listed_too() {
    let mut office = Office::new();
    office.lock(CODE, 1, "(D0|D1)&(D2|D3)", 0);
    office.lock(CODE, 9, "!U0", 1);
    let both = |first, second| grants(0, 1, &[plain(Defined, first), plain(Defined, second)]);
    office.shows(
        OWNER,
        CODE,
        &[
            both(0, 2),
            both(0, 3),
            both(1, 2),
            both(1, 3),
            denies(1, 1, &[barred(User, 0)]),
        ],
    );
    let rows = [grants(0, 1, &[]), denies(1, 1, &[])];
    office.shows(COLLEAGUE, CODE, &rows);
}

/// The numbers of the locks are the state's, so a segment's have gaps.
#[test]
fn a_segment_has_its_own_locks_and_its_own_owner() {
    let mut office = Office::new();
    let theirs = 2;
    office.ok(calls::call(b'N', COLLEAGUES_THREAD, 1, 0), theirs);
    office.lock(SHEET, 2, "U0", 0);
    office.ok(calls::lock(COLLEAGUES_THREAD, theirs, 4, b"U0|U1"), 1);
    office.lock(CODE, 1, "U0", 2);
    office.lock(SHEET, 4, "U1", 3);
    let rows = [
        grants(0, 2, &[plain(User, 0)]),
        grants(3, 4, &[plain(User, 1)]),
    ];
    office.shows(OWNER, SHEET, &rows);
    office.shows(COLLEAGUE, SHEET, &[grants(0, 2, &[]), grants(3, 4, &[])]);
    office.shows(OWNER, theirs, &[grants(1, 4, &[])]);
    let rows = [
        grants(1, 4, &[plain(User, 0)]),
        grants(1, 4, &[plain(User, 1)]),
    ];
    office.shows(COLLEAGUE, theirs, &rows);
}

#[test]
fn a_dropped_lock_is_gone() {
    let mut office = Office::with_three_locks();
    office.drop_lock(1, 2);
    let first = grants(0, 4, &[plain(User, 1), plain(Segment, 0)]);
    let last = grants(2, 2, &[plain(Defined, 2)]);
    office.shows(OWNER, SHEET, &[first.clone(), last.clone()]);
    office.shows(COLLEAGUE, SHEET, &[grants(0, 4, &[]), grants(2, 2, &[])]);
    office.refuses(OWNER, SHEET, 1, 19);
    office.refuses(COLLEAGUE, SHEET, 1, 19);
    // A new one comes after the others, with a new number.
    office.lock(SHEET, 6, "D3", 3);
    let new = grants(3, 6, &[plain(Defined, 3)]);
    office.shows(OWNER, SHEET, &[first, last, new]);
    for (lock, products) in [(2, 1), (0, 1), (3, 1)] {
        office.drop_lock(lock, products);
    }
    office.shows(OWNER, SHEET, &[]);
    office.shows(COLLEAGUE, SHEET, &[]);
}

/// Four rows for the owner, three for a colleague.
#[test]
fn too_few_rows_are_judged_by_what_the_user_needs() {
    let office = Office::with_three_locks();
    let answer = |user, count| office.guard.list(user, SHEET, &mut lent(count));
    assert_eq!(answer(OWNER, 4), Ok(4));
    office.refuses(OWNER, SHEET, 3, 19);
    office.refuses(OWNER, SHEET, 2, 19);
    office.refuses(OWNER, SHEET, 0, 19);
    assert_eq!(answer(COLLEAGUE, 4), Ok(3));
    assert_eq!(answer(COLLEAGUE, 3), Ok(3));
    office.refuses(COLLEAGUE, SHEET, 2, 19);
    office.refuses(COLLEAGUE, SHEET, 0, 19);
}

#[test]
fn a_segment_without_locks_needs_no_row() {
    let office = Office::with_three_locks();
    for user in [OWNER, COLLEAGUE] {
        assert_eq!(office.guard.list(user, CODE, &mut []), Ok(0));
        office.shows(user, CODE, &[]);
    }
}

#[test]
fn the_user_comes_before_the_segment_and_the_rows_last() {
    let office = Office::with_three_locks();
    for (lent, user) in [(0, STRANGER), (5, STRANGER), (0, 65_535), (5, 65_535)] {
        office.refuses(user, NOWHERE, lent, 1);
        office.refuses(user, SHEET, lent, 1);
        office.refuses(user, CODE, lent, 1);
    }
    for user in [OWNER, COLLEAGUE] {
        for (lent, segment) in [(0, NOWHERE), (5, NOWHERE), (0, 65_535), (5, 65_535)] {
            office.refuses(user, segment, lent, 3);
        }
        office.refuses(user, SHEET, 0, 19);
    }
    assert_eq!(office.history.listing(STRANGER, SHEET), None);
    assert_eq!(office.history.listing(OWNER, NOWHERE), None);
}

#[test]
fn an_empty_state_knows_no_user() {
    let guard = Guard::new();
    let mut given = lent(2);
    assert_eq!(guard.list(0, 0, &mut given), Err(Refusal::UnknownUser));
    assert_eq!(given, lent(2));
    assert_eq!(History::new().listing(0, 0), None);
}

/// U, R, S, D and then by number, however the text has them. An ended thread's
/// key stays where it is.
#[test]
fn a_rows_keys_are_in_the_products_order() {
    let mut office = Office::new();
    office.lock(SHEET, 2, "D3&!D1&S1&S0&!R0&U1", 0);
    let literals = [
        plain(User, 1),
        barred(Thread, 0),
        plain(Segment, 0),
        plain(Segment, 1),
        barred(Defined, 1),
        plain(Defined, 3),
    ];
    let rows = [grants(0, 2, &literals)];
    office.shows(OWNER, SHEET, &rows);
    office.ok(calls::call(b'E', COLLEAGUES_THREAD, 0, 0), 0);
    office.shows(OWNER, SHEET, &rows);
}

/// A listing names a user, who needs no thread for it.
#[test]
fn an_owner_without_a_thread_sees_his_products() {
    let mut office = Office::with_three_locks();
    office.ok(calls::call(b'E', OWNERS_THREAD, 0, 0), 0);
    office.ok(calls::call(b'E', COLLEAGUES_THREAD, 0, 0), 0);
    office.shows(
        OWNER,
        SHEET,
        &[
            grants(0, 4, &[plain(User, 1), plain(Segment, 0)]),
            grants(1, 6, &[barred(Defined, 0), plain(Defined, 1)]),
            grants(1, 6, &[plain(User, 0)]),
            grants(2, 2, &[plain(Defined, 2)]),
        ],
    );
    let rows = [grants(0, 4, &[]), grants(1, 6, &[]), grants(2, 2, &[])];
    office.shows(COLLEAGUE, SHEET, &rows);
    office.refuses(STRANGER, SHEET, 5, 1);
}

/// Eight products in one lock, and one in each of eight.
#[test]
fn as_many_products_as_a_segment_holds() {
    let mut office = Office::new();
    let text = "D3|!D3|D2|!D2|D1|!D1|D0|!D0";
    office.lock(SHEET, 6, text, 0);
    let keys = [3, 2, 1, 0].map(|n| [plain(Defined, n), barred(Defined, n)]);
    let rows = keys.as_flattened().iter().map(|key| grants(0, 6, &[*key]));
    office.shows(OWNER, SHEET, &rows.collect::<Vec<Row>>());
    office.refuses(OWNER, SHEET, 7, 19);
    office.shows(COLLEAGUE, SHEET, &[grants(0, 6, &[])]);
    office.refuses(COLLEAGUE, SHEET, 0, 19);

    for number in 1..9 {
        office.lock(CODE, 1, "U1", number);
    }
    let rows = |literals: &[Literal]| -> Vec<Row> {
        let row = |number| grants(number, 1, literals);
        (1..9).map(row).collect()
    };
    office.shows(OWNER, CODE, &rows(&[plain(User, 1)]));
    office.shows(COLLEAGUE, CODE, &rows(&[]));
    office.refuses(OWNER, CODE, 7, 19);
    office.refuses(COLLEAGUE, CODE, 7, 19);
}
