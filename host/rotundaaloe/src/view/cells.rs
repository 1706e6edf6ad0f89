//! What the cells mean, for every number that can stand in them. The layout is
//! that of `crates/model/specs/Cells.antt`.

use super::{Frame, Lock, Segment, Thread};
use crate::formula::{Key, Literal, Product};
use crate::limits::{MOST_OPEN_CALLS, MOST_SEGMENTS, MOST_THREADS};
use crate::numbers::{self, Defined, Kind, Operations, User};
use crate::raw;

/// A key list, or what a thread or a segment is.
type Row = [u16; 8];
/// A lock's product: lock, number of literals and operations, then the literals.
type ProductRow = [u32; 8];
type ThreadTable = <raw::Threads as IntoIterator>::Item;
type SegmentTable = <raw::Segments as IntoIterator>::Item;
type ProductTable = <raw::Locks as IntoIterator>::Item;

// Cells of the registry, and of row 0 of a segment and of a thread.
const SEGMENTS: usize = 2;
const OWNER: usize = 0;
const KIND: usize = 1;
const NUMBER: usize = 0;
const USER: usize = 1;
const FRAMES: usize = 2;
const LIVE: usize = 3;

/// The cells of a key list: S n is n, D n is this much more.
const DEFINED: u16 = 64;
const NO_KEY: u16 = u16::MAX;

/// How many segments are handed out.
pub fn segments(registry: &[u32; 8]) -> usize {
    MOST_SEGMENTS.min(registry[SEGMENTS] as usize)
}

/// The place where the guard finds a live thread: at its number's remainder
/// before all others.
pub fn find(threads: &raw::Threads, number: numbers::Thread) -> Option<&ThreadTable> {
    let home = &threads[usize::from(number.0) % MOST_THREADS];
    let mut places = std::iter::once(home).chain(threads);
    places.find(|place| is_live(place) && place[0][NUMBER] == number.0)
}

pub fn is_live(table: &ThreadTable) -> bool {
    table[0][LIVE] != 0
}

pub fn depth(table: &ThreadTable) -> usize {
    MOST_OPEN_CALLS.min(usize::from(table[0][FRAMES]))
}

pub fn thread(table: &ThreadTable) -> Thread {
    let frames = table[1..=depth(table)].iter().rev();
    Thread {
        number: numbers::Thread(table[0][NUMBER]),
        user: User(table[0][USER]),
        frames: frames.map(frame).collect(),
    }
}

fn frame(row: &Row) -> Frame {
    Frame {
        segment: numbers::Segment(row[0]),
        keys: keys(row),
    }
}

pub fn segment(number: numbers::Segment, table: &SegmentTable, rows: &ProductTable) -> Segment {
    let [what, mut list] = *table;
    list[0] = number.0;
    Segment {
        number,
        owner: User(what[OWNER]),
        kind: match what[KIND] {
            0 => Kind::Code,
            _ => Kind::Sheet,
        },
        keys: keys(&list),
        locks: locks(rows),
    }
}

fn keys(row: &Row) -> Vec<Key> {
    let taken = row.iter().filter(|cell| **cell != NO_KEY);
    taken.map(|cell| key(*cell)).collect()
}

fn key(cell: u16) -> Key {
    match cell.checked_sub(DEFINED) {
        None => Key::Segment(numbers::Segment(cell)),
        Some(number) => Key::Defined(Defined(number)),
    }
}

/// A lock's products stand together, and a row that begins with 0 ends them all.
fn locks(rows: &ProductTable) -> Vec<Lock> {
    let used = rows.iter().position(|row| row[0] == 0);
    let used = &rows[..used.unwrap_or(rows.len())];
    let locks = used.chunk_by(|row, next| head(row) == head(next));
    locks.map(lock).collect()
}

fn lock(rows: &[ProductRow]) -> Lock {
    let (number, operations) = head(&rows[0]);
    Lock {
        number,
        operations,
        products: rows.iter().map(product).collect(),
    }
}

fn head(row: &ProductRow) -> (numbers::Lock, Operations) {
    let [lock, operations] = [row[0] / 65_536, row[0] % 16];
    (numbers::Lock(lock as u16), Operations(operations as u16))
}

fn product(row: &ProductRow) -> Product {
    let literals = row[0] / 16 % 8;
    Product::of(&row[1..=literals as usize], literal)
}

/// Below 65,536 the cell of a key list, and 32,768 more where it is barred; then
/// users from 131,072 and threads from 262,144, and 65,536 more where barred.
fn literal(cell: u32) -> Literal {
    let number = cell as u16;
    let (key, barred) = match cell {
        0..65_536 => (key(number % 32_768), number >= 32_768),
        65_536..262_144 => (Key::User(User(number)), is_odd(cell / 65_536)),
        _ => (Key::Thread(numbers::Thread(number)), is_odd(cell / 65_536)),
    };
    match barred {
        true => Literal::Barred(key),
        false => Literal::Plain(key),
    }
}

fn is_odd(number: u32) -> bool {
    number % 2 == 1
}
