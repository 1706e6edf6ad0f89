//! The proved lock list: against the reference's after lists of calls, and against
//! what the library tells of a state, also on arrays that no list leads to. Every
//! segment is listed, for its owner and for others, with every number of rows
//! lent, from none to one more than any list needs.
//!
//! Lent rows have anything in them, and are compared whole afterwards, number by
//! number, with rows behind them that aren't lent. With `-- --nocapture` it also
//! prints how often owners and others came to each outcome.

#[path = "guards/filling.rs"]
mod filling;

use compare::guard::{Guard, coded, outcome};
use compare::listing::numbers;
use compare::typed::lock_row;
use filling::{EDGES, FILLINGS, Filling};
use reference::history::History;
use reference::limits::MAX_SEGMENT_PRODUCTS;
use reference::listing::Row;
use reference::operations::DENY;
use rotundaaloe::limits::{MOST_LITERALS, MOST_SEGMENTS};
use rotundaaloe::raw::LockRow as Numbers;
use rotundaaloe::view::{self, Lock};
use rotundaaloe::{LockRow, Operations, Refusal, Segment, User};
use std::collections::BTreeMap;
use std::ops::RangeInclusive;
use testing::calls::{Caller, WORLDS, World};
use testing::random::Random;
use testing::rows::rubbish;

const LISTS: usize = 1_000;
const ARRAYS: usize = 3_000;

/// Numbers of rows to lend.
const LENT: RangeInclusive<usize> = 0..=MAX_SEGMENT_PRODUCTS + 1;
/// Rows behind the lent ones.
const BEHIND: usize = 2;

/// How often listings came to each outcome, a refusal's number, or 0; those of
/// owners (`true`) and of others by themselves.
type Tally = BTreeMap<(bool, u32), usize>;

/// Owners and others must have come to each outcome that they can have, and never
/// to another: whoever owns a segment is a user, and it is one.
#[track_caller]
fn assert_complete(tally: &Tally) {
    println!("{tally:?}");
    let (owner, other) = (true, false);
    let others = [0, 1, 3, 19].map(|outcome| (other, outcome));
    let owners = [0, 19].map(|outcome| (owner, outcome));
    let possible = others.into_iter().chain(owners);
    assert!(tally.keys().copied().eq(possible), "{tally:?}");
}

/// Both guards after a list of calls, with what its calls and answers tell.
struct Office {
    reference: reference::guard::Guard,
    proved: Guard,
    history: History,
}

impl Office {
    fn after_a_list(random: &mut Random, world: &World) -> Office {
        let mut reference = reference::guard::Guard::new();
        let mut proved = Guard::new();
        let mut history = History::new();
        let mut caller = Caller::new(random, world);
        for _ in 0..caller.length() {
            let record = caller.next_call();
            let (letter, text) = (record.letter, &record.text[..]);
            let answer = reference.call(letter, record.a, record.b, record.c, text);
            let given = proved.call(letter, record.a, record.b, record.c, text);
            assert_eq!(given, coded(answer), "{record:?}");
            history.feed(&record, answer.ok());
            if let Ok(answer) = answer {
                caller.learn(&record, answer);
            }
        }
        Office {
            reference,
            proved,
            history,
        }
    }

    fn owns(&self, user: u16, segment: u16) -> bool {
        let segment = self.history.segment(segment);
        segment.is_some_and(|segment| segment.owner == user)
    }

    /// Every user with every segment, and one of each that isn't handed out.
    fn pairs(&self) -> Vec<(u16, u16)> {
        let issued = self.history.issued();
        let segments = 0..=issued.segments as u16;
        (0..=issued.users as u16)
            .flat_map(|user| segments.clone().map(move |segment| (user, segment)))
            .collect()
    }

    /// The guard in the host library's types.
    fn library(&self) -> rotundaaloe::Guard {
        rotundaaloe::Guard::from_cells(Box::new(self.proved.cells().clone()))
    }
}

/// Offices after lists of every kind.
fn try_offices(mut attempt: impl FnMut(&Office, &mut Random)) {
    for (world, seed) in WORLDS.iter().zip(40..) {
        let mut random = Random::new(seed);
        let to_the_limit = world.name == "everything to its limit";
        for _ in 0..if to_the_limit { LISTS / 20 } else { LISTS } {
            let office = Office::after_a_list(&mut random, world);
            attempt(&office, &mut random);
        }
    }
}

/// The proved list with so many rows lent must come to these rows, or to this
/// refusal, and leave all others, also those behind the lent ones.
#[track_caller]
fn lists(
    guard: &Guard,
    (user, segment): (u16, u16),
    lent: usize,
    expected: Result<&[LockRow], u32>,
    random: &mut Random,
) -> u32 {
    let mut rows = vec![Numbers::default(); lent + BEHIND];
    let cells = rows.as_flattened_mut().as_flattened_mut();
    cells.fill_with(|| random.bits() as u16);
    let mut after = rows.clone();
    for (row, filled) in after.iter_mut().zip(expected.unwrap_or_default()) {
        *row = numbers(filled);
    }
    let answer = guard.list_locks(user, segment, &mut rows[..lent]);
    let right = match expected {
        Ok(filled) => filled.len() as u32,
        Err(refusal) => refusal * 65_536,
    };
    assert_eq!(answer, right, "{user} {segment}, {lent} rows lent");
    assert_eq!(rows, after, "{user} {segment}, {lent} rows lent");
    outcome(answer)
}

#[test]
fn lists_of_calls() {
    let mut tally = Tally::new();
    try_offices(|office, random| {
        let before = office.proved.clone();
        for (user, segment) in office.pairs() {
            for lent in LENT {
                let mut told = vec![Row::default(); lent];
                let answer = office.reference.list(user, segment, &mut told);
                let told: Vec<LockRow> = told.iter().map(lock_row).collect();
                let expected = match answer {
                    Ok(filled) => Ok(&told[..filled]),
                    Err(refusal) => Err(refusal.number()),
                };
                let outcome = lists(&office.proved, (user, segment), lent, expected, random);
                let owns = office.owns(user, segment);
                *tally.entry((owns, outcome)).or_default() += 1;
            }
        }
        assert!(
            office.proved.cells() == before.cells(),
            "a cell has changed"
        );
    });
    assert_complete(&tally);
}

/// The library's two functions: one lends rows of its own, and no list needs more.
#[test]
fn by_the_library() {
    let counts: Vec<usize> = LENT.chain([40]).collect();
    try_offices(|office, random| {
        let guard = office.library();
        for (user, segment) in office.pairs() {
            let lent = random.pick(&counts);
            let mut told = rubbish(random, lent);
            let mut given: Vec<LockRow> = told.iter().map(lock_row).collect();
            let answer = office.reference.list(user, segment, &mut told);
            let filled = guard.list_locks(User(user), Segment(segment), &mut given);
            let filled = filled.map_err(|refusal| Refusal::from(refusal).number());
            assert_eq!(filled, answer.map_err(|refusal| refusal.number()));
            assert_eq!(given, told.iter().map(lock_row).collect::<Vec<LockRow>>());

            let mut told = vec![Row::default(); MAX_SEGMENT_PRODUCTS];
            let answer = office.reference.list(user, segment, &mut told);
            let expected = answer.map(|filled| told[..filled].iter().map(lock_row).collect());
            let rows = guard.locks(User(user), Segment(segment));
            let rows = rows.map_err(|refusal| Refusal::from(refusal).number());
            assert_eq!(rows, expected.map_err(|refusal| refusal.number()));
        }
    });
}

/// What anyone may see of a lock.
fn blank_row(lock: &Lock) -> LockRow {
    let Operations(set) = lock.operations;
    LockRow {
        lock: lock.number,
        operations: Operations(set & !DENY),
        deny: set & DENY != 0,
        keys: Vec::new(),
    }
}

/// A row for each product. Cells may hold one of more keys than a row has.
fn owners_rows(segment: &view::Segment) -> Vec<LockRow> {
    let mut rows = Vec::new();
    for lock in &segment.locks {
        for product in &lock.products {
            let keys = product.literals().iter().take(MOST_LITERALS);
            rows.push(LockRow {
                keys: keys.copied().collect(),
                ..blank_row(lock)
            });
        }
    }
    rows
}

/// A row for each lock. Cells may hold products of one lock with several sets of
/// operations, which the view takes for several locks; a row has the first.
fn colleagues_rows(segment: &view::Segment) -> Vec<LockRow> {
    let mut rows: Vec<LockRow> = segment.locks.iter().map(blank_row).collect();
    rows.dedup_by_key(|row| row.lock);
    rows
}

/// All rows of a list, or the refusal's number, where the library tells this of
/// the segment and so many users are handed out.
fn by_view(segment: Option<&view::Segment>, users: u32, user: u16) -> Result<Vec<LockRow>, u32> {
    match segment {
        _ if u32::from(user) >= users => Err(1),
        None => Err(3),
        Some(segment) if segment.owner == User(user) => Ok(owners_rows(segment)),
        Some(segment) => Ok(colleagues_rows(segment)),
    }
}

/// A guard with arrays that no list of calls leads to.
fn filled(random: &mut Random, filling: Filling) -> Guard {
    let guard = match filling {
        Filling::Damaged => Office::after_a_list(random, &WORLDS[0]).proved,
        _ => Guard::new(),
    };
    let mut cells = Box::new(guard.cells().clone());
    filling.fill(random, &mut cells);
    Guard::with_cells(cells)
}

/// Every segment's list, for its owner and for some other number.
fn compare_with_view(guard: &Guard, random: &mut Random, tally: &mut Tally) {
    let library = rotundaaloe::Guard::from_cells(Box::new(guard.cells().clone()));
    let segments = library.segments();
    for segment in (0..=MOST_SEGMENTS as u16).chain([u16::MAX]) {
        let seen = segments.get(usize::from(segment));
        let owner = seen.map_or(0, |seen| seen.owner.0);
        for user in [owner, random.pick(&EDGES) as u16] {
            let told = by_view(seen, guard.cells().registry[0], user);
            let rows = library.locks(User(user), Segment(segment));
            let rows = rows.map_err(|refusal| Refusal::from(refusal).number());
            assert_eq!(rows, told, "{user} {segment}");
            for lent in LENT {
                let expected = match &told {
                    Ok(rows) if lent < rows.len() => Err(19),
                    Ok(rows) => Ok(&rows[..]),
                    Err(refusal) => Err(*refusal),
                };
                let outcome = lists(guard, (user, segment), lent, expected, random);
                let owns = told.is_ok() && user == owner;
                *tally.entry((owns, outcome)).or_default() += 1;
            }
        }
    }
}

#[test]
fn any_numbers_in_the_arrays() {
    let mut random = Random::new(45);
    let mut tally = Tally::new();
    for turn in 0..ARRAYS {
        let guard = filled(&mut random, FILLINGS[turn % FILLINGS.len()]);
        compare_with_view(&guard, &mut random, &mut tally);
    }
    assert_complete(&tally);
}

#[test]
fn what_the_library_tells() {
    let mut tally = Tally::new();
    try_offices(|office, random| compare_with_view(&office.proved, random, &mut tally));
    assert_complete(&tally);
}
