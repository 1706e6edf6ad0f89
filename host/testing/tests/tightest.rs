//! Which lock answers (document 02, P6), told a third time: from the products of a
//! segment's locks that open, and their lengths. The reference guard and the history are
//! asked the same, in lists of locks of every tightness. Then the reference is given
//! faults in its choice, and the lists and the worked examples must tell each from it.
//!
//! `cargo test --release -- --nocapture` also prints how often each sort of question came,
//! and in how many lists each fault shows.

use reference::guard::{Answer, Guard, Refusal};
use reference::history::History;
use reference::journal::Record;
use reference::limits::MAX_LITERALS;
use reference::operations::EXECUTE;
use std::collections::BTreeMap;
use testing::calls::told;
use testing::choice::{Asked, FAULTS, Fault, Lock, answer_of};
use testing::faults::{self, Suspect};
use testing::tightness;

/// Lists of locks.
const LISTS: usize = 1_000;
/// Each sort of question must come this often, of calls and of accesses.
const OFTEN: usize = LISTS / 8;
/// Lists on which each fault is tried. It must show in one of `SHARE`.
const FAULTY_LISTS: usize = 300;
const SHARE: usize = 20;
/// Lists of each kind, without a fault.
const OTHER_LISTS: usize = 40;

/// What a question finds.
#[derive(Clone, Copy, Debug, PartialEq, Eq, PartialOrd, Ord)]
enum Sort {
    /// Several grant locks open, and no deny lock.
    Several,
    /// And the lowest of them isn't the tightest.
    NotTheLowest,
    /// And the tightest isn't alone.
    Equal,
    /// And the tightest has a longer product that doesn't open, or another lock that
    /// opens has one that is longer than the tightest.
    LongerClosed,
    /// And in the tightest a shorter product opens before the longest.
    NotTheFirst,
    /// And it is the tightest by its barred keys, or by its plain ones.
    ByBarred,
    ByPlain,
    /// And it has the most keys that fit.
    OfSix,
    /// A lock of another operation opens, which is tighter.
    OtherOperation,
    /// A deny lock opens, and so does a tighter grant lock.
    DeniedByAShorter,
    /// Several deny locks open, and the lowest isn't the longest.
    DeniedByTheLowest,
    /// A deny lock opens after a grant lock.
    DeniedAfter,
}

use Sort::*;

/// How many sorts there are.
const SORTS: usize = 12;

/// The sorts that a question is of.
fn sorts(asked: &Asked) -> Vec<Sort> {
    let (deny, grant) = (asked.opening(true), asked.opening(false));
    let longest = |locks: &[&Lock]| locks.iter().filter_map(|lock| lock.longest()).max();
    let most = longest(&grant);
    let tightest = grant.iter().find(|lock| lock.longest() == most);
    let (Some(tightest), Some(most)) = (tightest, most) else {
        return Vec::new();
    };
    if let Some(first) = deny.first() {
        let sorts = [
            (DeniedByAShorter, longest(&deny) < Some(most)),
            (DeniedByTheLowest, first.longest() < longest(&deny)),
            (DeniedAfter, first.number > grant[0].number),
        ];
        return came(&sorts);
    }
    let measured = |lock: &Lock| {
        let opening = lock.products.iter().filter(|product| product.opens);
        let plain = opening.clone().map(|product| product.plain).max();
        (plain, opening.map(|product| product.barred).max())
    };
    let others: Vec<_> = grant
        .iter()
        .filter(|lock| lock.number != tightest.number)
        .map(|lock| measured(lock))
        .collect();
    let (plain, barred) = measured(tightest);
    let has_longer = |lock: &&Lock| lock.products.iter().any(|product| product.length() > most);
    let is_tighter = |lock: &Lock| !lock.denies() && lock.longest() > Some(most);
    let several = grant.len() > 1;
    came(&[
        (Several, several),
        (NotTheLowest, tightest.number != grant[0].number),
        (
            Equal,
            several
                && grant
                    .iter()
                    .filter(|lock| lock.longest() == Some(most))
                    .count()
                    > 1,
        ),
        (LongerClosed, several && grant.iter().any(has_longer)),
        (
            NotTheFirst,
            several && tightest.lengths().next() < Some(most),
        ),
        (ByBarred, others.iter().any(|(other, _)| *other >= plain)),
        (ByPlain, others.iter().any(|(_, other)| *other >= barred)),
        (OfSix, several && most == MAX_LITERALS),
        (OtherOperation, asked.locks.iter().any(is_tighter)),
    ])
}

fn came(sorts: &[(Sort, bool)]) -> Vec<Sort> {
    let came = sorts.iter().filter(|(_, came)| *came);
    came.map(|(sort, _)| *sort).collect()
}

/// How often each sort came, of calls and of accesses.
type Tally = BTreeMap<(bool, Sort), usize>;

#[test]
fn lists_of_locks() {
    let mut tally = Tally::new();
    let (mut full, mut with_several) = (0, 0);
    for list in tightness::lists(98, LISTS) {
        let (mut guard, mut history) = (Guard::new(), History::new());
        let mut has_several = false;
        for record in list {
            let asked = Asked::of(&history, &record);
            let by_history = history.verdict(&record);
            let answer = told(&mut guard, &mut history, &record);
            let Some(asked) = asked else {
                continue;
            };
            assert_eq!(by_history.map(answer_of), Some(answer), "{record:?}");
            assert_eq!(asked.answer(None), answer, "{record:?} {asked:?}");
            full += usize::from(answer == Err(Refusal::Full));
            let sorts = sorts(&asked);
            has_several |= sorts.contains(&Several);
            for sort in sorts {
                let is_call = asked.operation == EXECUTE;
                *tally.entry((is_call, sort)).or_default() += 1;
            }
        }
        with_several += usize::from(has_several);
    }
    println!("{with_several} of {LISTS} lists with several locks, {full} full: {tally:?}");
    assert!(with_several > LISTS * 9 / 10, "{with_several} lists");
    assert!(full > OFTEN, "{full}");
    // A code segment's locks are for one operation. All else must come.
    assert_eq!(tally.get(&(true, OtherOperation)), None);
    assert_eq!(tally.len(), 2 * SORTS - 1, "{tally:?}");
    for ((is_call, sort), count) in tally {
        let often = count >= OFTEN;
        assert!(often, "{sort:?} of calls {is_call} came {count} times");
    }
}

/// A guard with a fault in its choice, or with none. To other calls its answers are right.
struct Faulty {
    history: History,
    fault: Option<Fault>,
}

impl Suspect for Faulty {
    type Fault = Fault;

    fn new(fault: Option<Fault>) -> Faulty {
        let history = History::new();
        Faulty { history, fault }
    }

    fn agrees(&mut self, record: &Record, right: Answer) -> bool {
        let asked = Asked::of(&self.history, record);
        self.history.feed(record, right.ok());
        asked.is_none_or(|asked| asked.answer(self.fault) == right)
    }
}

#[test]
fn a_faulty_choice_is_told() {
    for list in tightness::lists(99, FAULTY_LISTS) {
        assert!(!faults::shows::<Faulty>(None, &list));
    }
    let lists = tightness::lists(99, FAULTY_LISTS);
    faults::assert_found::<Faulty>(&FAULTS, lists, SHARE);
}

#[test]
fn a_faulty_choice_fails_a_worked_example() {
    faults::assert_fail_an_example::<Faulty>(&FAULTS);
}

/// So it is the faults that are told.
#[test]
fn the_right_choice_is_the_references() {
    let failed = faults::failed::<Faulty>(None);
    assert!(failed.is_empty(), "{failed:?}");
    faults::assert_right_in_every_world::<Faulty>(100, OTHER_LISTS);
}
