//! Rows to lend to a listing, with anything in them.

use crate::random::Random;
use reference::formula::Literal;
use reference::limits::MAX_LITERALS;
use reference::listing::Row;
use reference::{Key, Kind};

/// So many rows of rubbish.
pub fn rubbish(random: &mut Random, count: usize) -> Vec<Row> {
    (0..count).map(|_| row(random)).collect()
}

fn row(random: &mut Random) -> Row {
    Row {
        lock: random.bits() as u16,
        operations: random.bits() as u16,
        denies: random.one_in(2),
        literals: (0..random.between(0, MAX_LITERALS))
            .map(|_| literal(random))
            .collect(),
    }
}

fn literal(random: &mut Random) -> Literal {
    let key = Key {
        kind: random.pick(&Kind::ALL),
        number: random.bits() as u16,
    };
    let barred = random.one_in(2);
    Literal { key, barred }
}
