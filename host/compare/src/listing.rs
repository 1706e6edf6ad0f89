//! The lock list in the numbers that the proved guard writes.

use rotundaaloe::formula::{Key, Literal};
use rotundaaloe::raw;
use rotundaaloe::{Defined, LockRow, Segment, Thread, User};

/// The numbers that a row is written as.
pub fn numbers(row: &LockRow) -> raw::LockRow {
    let mut numbers = raw::LockRow::default();
    let [head, slots @ ..] = &mut numbers;
    *head = [row.lock.0, row.operations.0, u16::from(row.deny)];
    assert!(row.keys.len() <= slots.len(), "{row:?}");
    for (slot, literal) in slots.iter_mut().zip(&row.keys) {
        *slot = slot_of(*literal);
    }
    numbers
}

fn slot_of(literal: Literal) -> [u16; 3] {
    let (letter, number) = match literal.key() {
        Key::User(User(number)) => (b'U', number),
        Key::Thread(Thread(number)) => (b'R', number),
        Key::Segment(Segment(number)) => (b'S', number),
        Key::Defined(Defined(number)) => (b'D', number),
    };
    let barred = matches!(literal, Literal::Barred(_));
    [u16::from(letter), number, u16::from(barred)]
}
