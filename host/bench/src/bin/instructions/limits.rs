//! The most instructions that the proved guard may take, in one table.

use crate::checks::{self, Case};
use crate::grants::Grants;
use crate::scenes::{HOME, PAIRS, Pair, call_name, twelve_name};
use crate::takes::Take;
use reference::letter::Letter;

/// What a limit is on.
#[derive(Clone, Copy)]
pub enum Limited {
    /// The check of so many literals a product and products, at depth 1.
    Check(Case, u16, u16),
    /// The check where several grant locks open, at depth 1.
    Grants(Grants),
    /// C, by its own function, of a segment with this pair of products.
    Call(Pair),
    /// R, by its own function.
    Return,
    /// A, by its own function.
    Access,
    /// T, by its letter.
    Take(Take),
}

/// Each limit, and the most that is within it. The second pair of products has
/// a barred key. The limits where several grant locks open, and that on T where all
/// open calls lose the key, were chosen after the measurement.
pub const LIMITS: [(Limited, u64); 16] = [
    (Limited::Check(Case::FirstFails, 2, 1), 98),
    (Limited::Check(Case::FirstFails, 2, 2), 150),
    (Limited::Check(Case::FirstFails, 6, 8), 1_000),
    (Limited::Check(Case::Barred, 2, 1), 100),
    (Limited::Check(Case::Barred, 2, 2), 165),
    (Limited::Check(Case::Barred, 6, 8), 1_080),
    (Limited::Grants(Grants::Equal), 240),
    (Limited::Grants(Grants::Rising), 600),
    (Limited::Call(PAIRS[0]), 230),
    (Limited::Call(PAIRS[1]), 245),
    (Limited::Call(PAIRS[2]), 230),
    (Limited::Access, 145),
    (Limited::Return, 26),
    (Limited::Take(Take::Small), 600),
    (Limited::Take(Take::Fullest), 8_000),
    (Limited::Take(Take::OneSegment), 21_000),
];

impl Limited {
    /// What is counted, in words.
    pub fn name(self) -> String {
        match self {
            Limited::Check(case, m, n) => {
                let keys = match case {
                    Case::Barred => "one literal of each product barred",
                    _ => "plain keys",
                };
                format!("the check at depth 1, m = {m}, n = {n}, {keys}")
            }
            Limited::Grants(grants) => {
                let locks = grants.name();
                format!("the check at depth 1, grant locks that open: {locks}")
            }
            Limited::Call(pair) => {
                let [first, second] = pair.texts;
                format!("C, `{first}` and `{second}`")
            }
            Limited::Return => "R".to_string(),
            Limited::Access => "A, `S0&S1`".to_string(),
            Limited::Take(take) => take.name().to_string(),
        }
    }

    /// The scenes that it is counted in. C and R must take the same for every
    /// thread that stands at its own place.
    pub fn scenes(self) -> Vec<String> {
        let at_home = |letter, pair| {
            let threads = HOME.into_iter();
            threads
                .map(|thread| call_name(letter, false, pair, thread))
                .collect()
        };
        match self {
            Limited::Check(case, m, n) => vec![checks::name(case, m, n, 1)],
            Limited::Grants(grants) => vec![grants.scene_name(1)],
            Limited::Call(pair) => at_home(Letter::CallSegment, pair),
            Limited::Return => at_home(Letter::ReturnCall, PAIRS[0]),
            Limited::Access => vec![twelve_name(Letter::Access, false)],
            Limited::Take(take) => vec![take.name().to_string()],
        }
    }
}
