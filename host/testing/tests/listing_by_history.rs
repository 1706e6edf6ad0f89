//! Listings of the reference guard after lists of calls at random: every user's,
//! of every segment, with every number of rows lent, against those that the
//! history tells, and against a guard whose locks have other formulas.

use reference::guard::{Guard, Refusal};
use reference::history::History;
use reference::journal::Record;
use reference::letter::Letter;
use reference::listing::Row;
use std::collections::BTreeMap;
use std::ops::RangeInclusive;
use testing::calls::{Caller, WORLDS, World};
use testing::random::Random;
use testing::rows::rubbish;

const LISTS: usize = 600;

/// What a listing came to, and the rows that were lent, afterwards.
type Listed = (Result<usize, Refusal>, Vec<Row>);

/// A guard after a list of calls, with what its calls and answers tell.
struct Office {
    guard: Guard,
    history: History,
    accepted: Vec<Record>,
}

impl Office {
    fn after_a_list(random: &mut Random, world: &World) -> Office {
        let mut guard = Guard::new();
        let mut history = History::new();
        let mut accepted = Vec::new();
        let mut caller = Caller::new(random, world);
        for _ in 0..caller.length() {
            let record = caller.next_call();
            let answer = guard.call(record.letter, record.a, record.b, record.c, &record.text);
            history.feed(&record, answer.ok());
            if let Ok(answer) = answer {
                caller.learn(&record, answer);
                accepted.push(record);
            }
        }
        Office {
            guard,
            history,
            accepted,
        }
    }

    /// The users that are handed out, and one that isn't.
    fn users(&self) -> impl Iterator<Item = u16> + use<> {
        0..=self.history.issued().users as u16
    }

    /// The segments that are handed out, and one that isn't.
    fn segments(&self) -> impl Iterator<Item = u16> + use<> {
        0..=self.history.issued().segments as u16
    }

    fn owns(&self, user: u16, segment: u16) -> bool {
        let segment = self.history.segment(segment);
        segment.is_some_and(|segment| segment.owner == user)
    }

    /// Numbers of rows to lend: from none to one more than the owner needs, who
    /// needs most.
    fn lent_counts(&self, segment: u16) -> RangeInclusive<usize> {
        let owner = self.history.segment(segment).map(|segment| segment.owner);
        let rows = owner.and_then(|owner| self.history.listing(owner, segment));
        0..=rows.map_or(0, |rows| rows.len()) + 1
    }

    /// What the listing must come to with these rows lent.
    fn expected(&self, user: u16, segment: u16, lent: &[Row]) -> Listed {
        let refused = |refusal| (Err(refusal), lent.to_vec());
        if u32::from(user) >= self.history.issued().users {
            return refused(Refusal::UnknownUser);
        }
        let Some(rows) = self.history.listing(user, segment) else {
            return refused(Refusal::NoSegment);
        };
        if lent.len() < rows.len() {
            return refused(Refusal::TooFewRows);
        }
        let after = [&rows, &lent[rows.len()..]].concat();
        (Ok(rows.len()), after)
    }
}

fn list(guard: &Guard, user: u16, segment: u16, lent: &[Row]) -> Listed {
    let mut rows = lent.to_vec();
    let answer = guard.list(user, segment, &mut rows);
    (answer, rows)
}

/// How often listings came to each outcome, a refusal's number, or 0; those of
/// owners (`true`) and of others by themselves.
type Tally = BTreeMap<(bool, u32), usize>;

fn compare_every_listing(office: &Office, random: &mut Random, tally: &mut Tally) {
    for (user, segment) in pairs(office) {
        for count in office.lent_counts(segment) {
            let lent = rubbish(random, count);
            let listed = list(&office.guard, user, segment, &lent);
            let expected = office.expected(user, segment, &lent);
            assert_eq!(listed, expected, "{user} {segment} {count}");
            let outcome = listed.0.map_or_else(Refusal::number, |_| 0);
            let owns = office.owns(user, segment);
            *tally.entry((owns, outcome)).or_default() += 1;
        }
    }
}

fn pairs(office: &Office) -> Vec<(u16, u16)> {
    office
        .users()
        .flat_map(|user| office.segments().map(move |segment| (user, segment)))
        .collect()
}

/// Offices after lists of every kind.
fn try_offices(mut attempt: impl FnMut(&Office, &mut Random)) {
    for (seed, world) in WORLDS.iter().enumerate() {
        let mut random = Random::new(seed as u64);
        let to_the_limit = world.name == "everything to its limit";
        for _ in 0..if to_the_limit { LISTS / 20 } else { LISTS } {
            let office = Office::after_a_list(&mut random, world);
            attempt(&office, &mut random);
        }
    }
}

#[test]
fn the_guard_lists_what_the_history_tells() {
    let mut tally = Tally::new();
    try_offices(|office, random| compare_every_listing(office, random, &mut tally));
    println!("{tally:?}");
    let outcomes: Vec<(bool, u32)> = tally.into_keys().collect();
    let (owner, other) = (true, false);
    let possible = [(other, 0), (other, 1), (other, 3), (other, 19)];
    assert_eq!(
        outcomes,
        [&possible[..], &[(owner, 0), (owner, 19)]].concat()
    );
}

/// The guard after the same accepted calls, with `U0` for each lock's text. What
/// it grants is another matter, so threads make no calls.
fn with_other_formulas(accepted: &[Record]) -> Guard {
    let mut guard = Guard::new();
    for record in accepted {
        let text: &[u8] = match Letter::of(record.letter) {
            Some(Letter::CallSegment | Letter::ReturnCall | Letter::Access) => continue,
            Some(Letter::AddLock) => b"U0",
            _ => b"",
        };
        let answer = guard.call(record.letter, record.a, record.b, record.c, text);
        assert!(answer.is_ok(), "{record:?}");
    }
    guard
}

#[test]
fn a_colleague_learns_nothing_of_the_formulas() {
    let (mut colleagues, mut owners_that_do) = (0, 0);
    try_offices(|office, random| {
        let other = with_other_formulas(&office.accepted);
        for (user, segment) in pairs(office) {
            for count in office.lent_counts(segment) {
                let lent = rubbish(random, count);
                let [one, two] = [&office.guard, &other].map(|g| list(g, user, segment, &lent));
                if office.owns(user, segment) {
                    owners_that_do += usize::from(one != two);
                } else {
                    colleagues += 1;
                    assert_eq!(one, two, "{user} {segment} {count}");
                }
            }
        }
    });
    assert!(colleagues > 0 && owners_that_do > 0);
}
