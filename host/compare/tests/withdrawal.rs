//! Faulty guards, each with another key withdrawn somewhere (document 02, P5), are
//! found by their answers: to lists of withdrawals, and to the worked examples. One
//! without a fault never is. That the proved guard has none of them is compared in
//! `guard.rs`, with every cell.
//!
//! With `-- --nocapture` it also prints in how many lists each fault shows.

#[path = "guards/faulty_taker.rs"]
mod faulty_taker;
#[path = "guards/frames.rs"]
mod frames;

use faulty_taker::{FAULTS, Faulty};
use reference::journal::Record;
use testing::faults;
use testing::random::Random;
use testing::withdrawals;

/// Lists of withdrawals.
const LISTS: usize = 400;
/// Each fault must show in one of this many.
const SHARE: usize = 20;
/// Lists of each kind, on a guard without a fault.
const OTHER_LISTS: usize = 40;

fn drawn() -> impl ExactSizeIterator<Item = Vec<Record>> {
    let mut random = Random::new(95);
    (0..LISTS).map(move |_| withdrawals::list(&mut random))
}

#[test]
fn a_faulty_taker_is_found() {
    faults::assert_found::<Faulty>(&FAULTS, drawn(), SHARE);
}

#[test]
fn a_faulty_taker_fails_a_worked_example() {
    faults::assert_fail_an_example::<Faulty>(&FAULTS);
}

/// So it is the faults that are found.
#[test]
fn one_without_a_fault_is_never_found() {
    for list in drawn() {
        assert!(!faults::shows::<Faulty>(None, &list));
    }
    faults::assert_right_in_every_world::<Faulty>(96, OTHER_LISTS);
}
