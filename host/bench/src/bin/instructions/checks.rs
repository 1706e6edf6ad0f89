//! The scenes of the check: m literals a product, n products, each the whole of
//! a lock, and a thread with some open calls.

use crate::scenes::{Check, Counted, Scene};
use bench::route::{self, DEPTHS, FIRST_LOCK, SHEET, THREAD};
use reference::journal::Record;
use reference::limits::{MAX_LITERALS, MAX_SEGMENT_PRODUCTS};
use reference::operations::WRITE;
use std::ops::RangeInclusive;

/// The literals of a product.
pub const LITERALS: RangeInclusive<u16> = 1..=MAX_LITERALS as u16;
/// The products on a segment.
pub const PRODUCTS: RangeInclusive<u16> = 1..=MAX_SEGMENT_PRODUCTS as u16;

/// Which products of a check's scene open, where the others fail, and which
/// open call has handed over the defined keys. The proved guard asks a
/// product's last literal first and the newest open call first, the reference
/// the other way round.
#[derive(Clone, Copy, PartialEq, Eq)]
pub enum Case {
    /// The proved guard's worst: it asks every literal of every product and
    /// every open call for each.
    FirstFails,
    LastFails,
    FirstFailsNewest,
    /// The reference's worst.
    LastFailsNewest,
    Barred,
    FirstOpens,
}

impl Case {
    pub const ALL: [Case; 6] = [
        Case::FirstFails,
        Case::LastFails,
        Case::FirstFailsNewest,
        Case::LastFailsNewest,
        Case::Barred,
        Case::FirstOpens,
    ];

    /// The case in words.
    pub fn name(self) -> &'static str {
        match self {
            Case::FirstFails => "all but the last product fail at the first literal",
            Case::LastFails => "all but the last product fail at the last literal",
            Case::FirstFailsNewest => {
                "all but the last product fail at the first literal, keys from the newest call"
            }
            Case::LastFailsNewest => {
                "all but the last product fail at the last literal, keys from the newest call"
            }
            Case::Barred => {
                "all but the last product fail at the first literal, one literal of each is barred"
            }
            Case::FirstOpens => "the first product opens, the others fail at the first literal",
        }
    }

    pub fn depths(self) -> &'static [u16] {
        match self {
            Case::FirstFails | Case::LastFails => &DEPTHS,
            // At depth 1 the newest open call is the oldest.
            Case::FirstFailsNewest | Case::LastFailsNewest => &DEPTHS[1..],
            Case::Barred | Case::FirstOpens => &DEPTHS[..1],
        }
    }

    /// The segment whose open call has handed over the defined keys.
    fn holder(self, depth: u16) -> u16 {
        match self {
            Case::FirstFailsNewest | Case::LastFailsNewest => depth - 1,
            _ => 0,
        }
    }

    /// The product that opens, of this many.
    fn opening(self, products: u16) -> u16 {
        match self {
            Case::FirstOpens => 0,
            _ => products - 1,
        }
    }

    /// A product of this many literals. Of the keys D0 to D8 the thread holds
    /// all but the first and the last.
    fn product(self, opens: bool, literals: u16) -> String {
        let plain = |from: u16, to: u16| (from..to).map(|number| format!("D{number}"));
        let m = literals;
        let keys: Vec<String> = match (self, opens) {
            (Case::Barred, true) => plain(1, m).chain(["!D8".to_string()]).collect(),
            (Case::Barred, false) if m == 1 => vec!["!D1".to_string()],
            (Case::Barred, false) => plain(0, m - 1).chain(["!D8".to_string()]).collect(),
            (_, true) => plain(1, m + 1).collect(),
            (Case::LastFails | Case::LastFailsNewest, false) => {
                plain(1, m).chain(["D8".to_string()]).collect()
            }
            (_, false) => plain(0, m).collect(),
        };
        keys.join("&")
    }
}

/// The scene's name.
pub fn name(case: Case, literals: u16, products: u16, depth: u16) -> String {
    let case = case.name();
    format!("check, {case}, {literals} literals, {products} products, depth {depth}")
}

pub fn scene(case: Case, literals: u16, products: u16, depth: u16) -> Scene {
    let opening = case.opening(products);
    let texts: Vec<String> = (0..products)
        .map(|product| case.product(product == opening, literals))
        .collect();
    let name = name(case, literals, products, depth);
    let before = route::calls(depth, case.holder(depth), &texts);
    of_sheet(name, before, opening)
}

/// A check of the operation write on the route's sheet: of the proved guard, inside
/// an access. The lock at this place, 0 for the first, answers.
pub fn of_sheet(name: String, before: Vec<Record>, answering: u16) -> Scene {
    Scene {
        name,
        before,
        counted: Counted::Check(Check {
            thread: THREAD,
            segment: SHEET,
            operation: WRITE,
        }),
        expected: FIRST_LOCK + answering,
    }
}
