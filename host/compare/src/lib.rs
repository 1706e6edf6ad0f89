//! What comparing the proved guard with the reference takes: the translation
//! between its rows and numbers and the reference's products and keys; the same
//! for [`journal`]s, for the [`guard`] itself and for its lock [`listing`];
//! [`typed`] is the same for the host library's types. [`office`] is the office
//! program.

pub mod guard;
pub mod journal;
pub mod listing;
pub mod office;
pub mod typed;

use reference::formula::{Literal, Product};
use reference::limits::{MAX_LITERALS, MAX_PRODUCTS};
use reference::{Issued, Key, Kind};
use rotundaaloe::raw;

pub use rotundaaloe::raw::Rows;

/// The rows that the proved guard writes to: one for each product that fits.
pub const ROWS: usize = MAX_PRODUCTS;
/// The cells in a row: one for each literal that fits, one that stays 0, and
/// the number of literals.
pub const CELLS: usize = 8;
/// The cell with the number of literals.
pub const COUNT_CELL: usize = 7;

/// The proved guard's sum of products of a text. The answer is the number of
/// products, 1 to 8, and the rows hold them; or it is the refusal 11, 12 or
/// 13, and the rows are as they were.
pub fn compile(text: &[u8], issued: &Issued, rows: &mut Rows) -> u32 {
    raw::compile(text, Kind::ALL.map(|kind| issued.count(kind)), rows)
}

/// A cell is its kind's place times this, plus twice the number, plus 1 if the
/// literal is barred.
const KIND_STEP: u32 = 131_072;

/// The kinds in the order of their places in a cell's number.
const KINDS: [Kind; 4] = [Kind::User, Kind::Thread, Kind::Segment, Kind::Defined];

/// The rows that a sum of products is written as.
pub fn rows_of(products: &[Product]) -> Rows {
    let mut rows = Rows::default();
    assert!(products.len() <= ROWS);
    for (row, product) in rows.iter_mut().zip(products) {
        let literals = product.literals();
        assert!(literals.len() <= MAX_LITERALS);
        for (cell, literal) in row.iter_mut().zip(literals) {
            *cell = cell_of(literal);
        }
        row[COUNT_CELL] = literals.len() as u32;
    }
    rows
}

fn cell_of(literal: &Literal) -> u32 {
    key_number(&literal.key) * 2 + u32::from(literal.barred)
}

/// The number that the proved guard knows a key by: its kind's place times half
/// a `KIND_STEP`, plus its own number.
pub fn key_number(key: &Key) -> u32 {
    let place = KINDS.iter().position(|kind| *kind == key.kind);
    let place = place.expect("all four kinds have a place") as u32;
    place * (KIND_STEP / 2) + u32::from(key.number)
}

/// The literals of a row. Panics where the row is none that a product is
/// written as.
pub fn literals_of(row: &[u32; CELLS]) -> Vec<Literal> {
    let count = row[COUNT_CELL] as usize;
    assert!((1..=MAX_LITERALS).contains(&count), "literals in {row:?}");
    row[..count].iter().map(|cell| literal_of(*cell)).collect()
}

fn literal_of(cell: u32) -> Literal {
    let kind = KINDS[(cell / KIND_STEP) as usize];
    let number = (cell % KIND_STEP / 2) as u16;
    Literal {
        key: Key { kind, number },
        barred: cell % 2 == 1,
    }
}
