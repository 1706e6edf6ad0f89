//! Which grant lock answers where several open (document 02, P6), in lists of locks of
//! every tightness: the proved guard against the reference and the history. Then faulty
//! guards, each with another choice somewhere, are found by their answers, to the lists
//! and to the worked examples. One without a fault never is. Every cell is compared in
//! `guard.rs`.
//!
//! With `-- --nocapture` it also prints how many questions had several locks that open,
//! and in how many lists each fault shows.

#[path = "guards/faulty_chooser.rs"]
mod faulty_chooser;

use compare::guard::{self, Own, coded};
use faulty_chooser::Faulty;
use reference::guard::Guard;
use reference::history::History;
use reference::journal::Record;
use reference::operations::EXECUTE;
use testing::calls::told;
use testing::choice::{Asked, FAULTS, Fault, answer_of};
use testing::faults;
use testing::tightness;

/// Lists of locks.
const LISTS: usize = 1_000;
/// Lists on which each fault is tried. It must show in one of `SHARE`.
const FAULTY_LISTS: usize = 300;
const SHARE: usize = 20;
/// Lists of each kind, on a guard without a fault.
const OTHER_LISTS: usize = 10;

/// Both guards and the history, which must give the same answer.
#[derive(Default)]
struct Three {
    proved: guard::Guard,
    reference: Guard,
    history: History,
}

impl Three {
    /// `direct` sends a C, R or A of the right shape to its own function.
    fn call(&mut self, record: &Record, direct: bool) {
        let verdict = self.history.verdict(record);
        let answer = told(&mut self.reference, &mut self.history, record);
        if let Some(verdict) = verdict {
            assert_eq!(answer_of(verdict), answer, "{record:?} by the history");
        }
        let Record {
            letter, a, b, c, ..
        } = *record;
        let given = match Own::of_record(record) {
            Some(own) if direct => self.proved.call_own(own),
            _ => self.proved.call(letter, a, b, c, &record.text),
        };
        assert_eq!(given, coded(answer), "{record:?} by the proved guard");
    }
}

/// How often several grant locks opened and no deny lock.
#[derive(Debug, Default)]
struct Tally {
    lists: usize,
    calls: usize,
    accesses: usize,
    /// Questions where the lowest of them isn't the tightest.
    not_the_lowest: usize,
}

#[test]
fn lists_of_locks() {
    let mut tally = Tally::default();
    for list in tightness::lists(101, LISTS) {
        let mut three = Three::default();
        let before = tally.calls + tally.accesses;
        for (turn, record) in list.iter().enumerate() {
            let asked = Asked::of(&three.history, record);
            let several =
                |asked: &Asked| asked.opening(true).is_empty() && asked.opening(false).len() > 1;
            if let Some(asked) = asked.filter(several) {
                let is_call = asked.operation == EXECUTE;
                tally.calls += usize::from(is_call);
                tally.accesses += usize::from(!is_call);
                let by_number = asked.answer(Some(Fault::Lowest));
                tally.not_the_lowest += usize::from(asked.answer(None) != by_number);
            }
            three.call(record, turn % 2 == 1);
        }
        tally.lists += usize::from(tally.calls + tally.accesses > before);
    }
    println!("several locks in {LISTS} lists: {tally:?}");
    assert!(tally.lists > LISTS * 9 / 10, "{tally:?}");
    let counts = [tally.calls, tally.accesses, tally.not_the_lowest];
    assert!(counts.iter().all(|count| *count > 5 * LISTS), "{tally:?}");
}

#[test]
fn a_faulty_chooser_is_found() {
    let lists = tightness::lists(102, FAULTY_LISTS);
    faults::assert_found::<Faulty>(&FAULTS, lists, SHARE);
}

#[test]
fn a_faulty_chooser_fails_a_worked_example() {
    faults::assert_fail_an_example::<Faulty>(&FAULTS);
}

/// So it is the faults that are found.
#[test]
fn one_without_a_fault_is_never_found() {
    for list in tightness::lists(102, FAULTY_LISTS) {
        assert!(!faults::shows::<Faulty>(None, &list));
    }
    let failed = faults::failed::<Faulty>(None);
    assert!(failed.is_empty(), "{failed:?}");
    faults::assert_right_in_every_world::<Faulty>(103, OTHER_LISTS);
}
