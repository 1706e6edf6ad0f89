//! The reference's keys and rows in the host library's types.

use reference::formula;
use reference::listing::Row;
use reference::{Key as ReferenceKey, Kind};
use rotundaaloe::formula::{Key, Literal};
use rotundaaloe::{Defined, Lock, LockRow, Operations, Segment, Thread, User};

pub fn key(key: &ReferenceKey) -> Key {
    let number = key.number;
    match key.kind {
        Kind::User => Key::User(User(number)),
        Kind::Thread => Key::Thread(Thread(number)),
        Kind::Segment => Key::Segment(Segment(number)),
        Kind::Defined => Key::Defined(Defined(number)),
    }
}

pub fn literal(literal: &formula::Literal) -> Literal {
    match literal.barred {
        true => Literal::Barred(key(&literal.key)),
        false => Literal::Plain(key(&literal.key)),
    }
}

pub fn lock_row(row: &Row) -> LockRow {
    LockRow {
        lock: Lock(row.lock),
        operations: Operations(row.operations),
        deny: row.denies,
        keys: row.literals.iter().map(literal).collect(),
    }
}
