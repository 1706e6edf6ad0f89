//! What is wrong with a text: the mistakes that are shown, and a count.

use super::wrong::Fault;
use crate::shown::characters;

/// What is wrong at a place of a text.
#[derive(Clone, Debug, PartialEq, Eq)]
pub struct Mistake {
    /// From 1.
    pub line: usize,
    /// From 1, in characters.
    pub column: usize,
    pub message: String,
}

/// The mistakes of a text, one a line at most.
#[derive(Clone, Debug, Default, PartialEq, Eq)]
pub struct Mistakes {
    /// Those in the first lines that have one, at most [`Mistakes::MOST`].
    pub first: Vec<Mistake>,
    /// Of all of them.
    pub count: usize,
    /// The calls without a mistake.
    pub right_calls: usize,
}

impl Mistakes {
    /// The most that are told one by one.
    pub const MOST: usize = 20;

    pub(super) fn add(&mut self, number: usize, line: &[u8], fault: &Fault) {
        self.count += 1;
        if self.first.len() < Mistakes::MOST {
            self.first.push(Mistake {
                line: number,
                column: characters(&line[..fault.at]).count() + 1,
                message: fault.wrong.words(),
            });
        }
    }
}
