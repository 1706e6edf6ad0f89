//! How often each letter of a call came to each outcome.

use reference::letter::Letter;
use std::fmt;
use testing::calls::outcomes;

/// How often each letter came to each outcome: a refusal's number, or 0. The
/// last row is for what is no call's letter.
#[derive(Clone, Default)]
pub struct Tally {
    counts: [[u64; 19]; Letter::ALL.len() + 1],
}

/// The rows' letters, with one that is no call's.
fn rows(none: u8) -> impl Iterator<Item = u8> {
    Letter::ALL.into_iter().map(Letter::byte).chain([none])
}

impl Tally {
    pub fn add(&mut self, letter: u8, outcome: u32) {
        let row = Letter::ALL.iter().position(|known| known.byte() == letter);
        self.counts[row.unwrap_or(Letter::ALL.len())][outcome as usize] += 1;
    }

    pub fn merge(&mut self, other: &Tally) {
        for (row, more) in self.counts.iter_mut().zip(&other.counts) {
            for (count, more) in row.iter_mut().zip(more) {
                *count += more;
            }
        }
    }

    pub fn calls(&self) -> u64 {
        self.counts.iter().flatten().sum()
    }

    pub fn refused(&self) -> u64 {
        self.counts.iter().flat_map(|row| &row[1..]).sum()
    }

    /// Every letter must have come at least so often to each outcome that it
    /// can have, and never to another. Each can be accepted, and refused.
    #[track_caller]
    pub fn assert_complete(&self, least: u64) {
        for letter in Letter::ALL {
            let possible = outcomes(letter.byte());
            assert!(possible.len() > 1 && possible[0] == 0, "{letter:?}");
        }
        for (row, letter) in self.counts.iter().zip(rows(0)) {
            for (outcome, count) in row.iter().enumerate() {
                let can_be = outcomes(letter).contains(&(outcome as u32));
                let right = if can_be { *count >= least } else { *count == 0 };
                let letter = letter.escape_ascii();
                assert!(right, "{letter} came to {outcome} {count} times");
            }
        }
    }
}

impl fmt::Display for Tally {
    fn fmt(&self, f: &mut fmt::Formatter) -> fmt::Result {
        write!(f, "{} calls, {} refused", self.calls(), self.refused())?;
        for (row, letter) in self.counts.iter().zip(rows(b'?')) {
            write!(f, "\n  {}", char::from(letter))?;
            for (outcome, count) in row.iter().enumerate().filter(|(_, count)| **count > 0) {
                write!(f, " {outcome}:{count}")?;
            }
        }
        Ok(())
    }
}
