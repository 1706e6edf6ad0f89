//! Formula texts (document 01: lock texts) and the sums of products that they
//! compile to.

use crate::numbers::{Defined, Segment, Thread, User};
use crate::raw;
use crate::refusal::{self, Refusal};
use std::fmt;

/// A key. The order is that of a product's keys.
#[derive(Clone, Copy, Debug, PartialEq, Eq, PartialOrd, Ord, Hash)]
pub enum Key {
    User(User),
    Thread(Thread),
    Segment(Segment),
    Defined(Defined),
}

impl Key {
    /// The number that the proved functions know it by.
    pub(crate) fn code(self) -> u32 {
        let (kind, number) = match self {
            Key::User(User(number)) => (0, number),
            Key::Thread(Thread(number)) => (1, number),
            Key::Segment(Segment(number)) => (2, number),
            Key::Defined(Defined(number)) => (3, number),
        };
        kind * 65_536 + u32::from(number)
    }

    fn of(code: u32) -> Key {
        let number = (code % 65_536) as u16;
        match code / 65_536 {
            0 => Key::User(User(number)),
            1 => Key::Thread(Thread(number)),
            2 => Key::Segment(Segment(number)),
            3 => Key::Defined(Defined(number)),
            _ => unreachable!("the compiler's contract has four kinds of keys"),
        }
    }
}

impl fmt::Display for Key {
    fn fmt(&self, f: &mut fmt::Formatter) -> fmt::Result {
        match self {
            Key::User(user) => user.fmt(f),
            Key::Thread(thread) => thread.fmt(f),
            Key::Segment(segment) => segment.fmt(f),
            Key::Defined(key) => key.fmt(f),
        }
    }
}

/// A key that must be held, or one that must not (document 01: signed key).
#[derive(Clone, Copy, Debug, PartialEq, Eq)]
pub enum Literal {
    Plain(Key),
    Barred(Key),
}

impl Literal {
    pub fn key(self) -> Key {
        match self {
            Literal::Plain(key) | Literal::Barred(key) => key,
        }
    }

    fn code(self) -> u32 {
        self.key().code() * 2 + u32::from(matches!(self, Literal::Barred(_)))
    }

    fn of(code: u32) -> Literal {
        let key = Key::of(code / 2);
        match code % 2 {
            0 => Literal::Plain(key),
            _ => Literal::Barred(key),
        }
    }
}

impl fmt::Display for Literal {
    fn fmt(&self, f: &mut fmt::Formatter) -> fmt::Result {
        match self {
            Literal::Plain(key) => key.fmt(f),
            Literal::Barred(key) => write!(f, "!{key}"),
        }
    }
}

/// How many keys of each kind are handed out: those below the count.
#[derive(Clone, Copy, Debug, Default, PartialEq, Eq)]
pub struct Issued {
    pub users: u32,
    pub threads: u32,
    pub segments: u32,
    pub defined: u32,
}

/// Literals that must all agree with a key set for it to open the product.
#[derive(Clone, Debug, PartialEq, Eq)]
pub struct Product {
    literals: Vec<Literal>,
}

impl Product {
    /// That of some cells with a literal in each.
    pub(crate) fn of(cells: &[u32], literal: fn(u32) -> Literal) -> Product {
        Product {
            literals: cells.iter().copied().map(literal).collect(),
        }
    }

    /// In order, and no key twice.
    pub fn literals(&self) -> &[Literal] {
        &self.literals
    }

    /// Whether the key set opens it, as the proved function says.
    pub fn opens(&self, keys: &[Key]) -> bool {
        let mut rows = raw::Rows::default();
        for (cell, literal) in rows[0].iter_mut().zip(&self.literals) {
            *cell = literal.code();
        }
        rows[0][7] = self.literals.len() as u32;
        let keys: Vec<u32> = keys.iter().map(|key| key.code()).collect();
        raw::opens(&rows, 1, &keys) == 1
    }
}

/// As a formula text: `S0&!D1`.
impl fmt::Display for Product {
    fn fmt(&self, f: &mut fmt::Formatter) -> fmt::Result {
        for (place, literal) in self.literals.iter().enumerate() {
            let joint = if place == 0 { "" } else { "&" };
            write!(f, "{joint}{literal}")?;
        }
        Ok(())
    }
}

/// The products of a formula text, 1 to 8 of them.
pub fn compile(text: &[u8], issued: Issued) -> Result<Vec<Product>, refusal::Compile> {
    let mut rows = raw::Rows::default();
    let counts = [
        issued.users,
        issued.threads,
        issued.segments,
        issued.defined,
    ];
    let products = match raw::compile(text, counts, &mut rows) {
        products @ 1..=8 => products as usize,
        number => return Err(refusal::Compile::of(Refusal::of(number, 0))),
    };
    let product = |row: &[u32; 8]| Product::of(&row[..row[7] as usize], Literal::of);
    Ok(rows[..products].iter().map(product).collect())
}
