//! Answers as the office program prints them.

use rotundaaloe::Refusal;
use std::fmt;

/// `ok N`, or `no N M`. Any numbers can stand here: a text may expect what the
/// guard never answers.
#[derive(Clone, Copy, Debug, PartialEq, Eq)]
pub enum Answer {
    Ok(u16),
    No { refusal: u16, second: u16 },
}

impl From<Result<u16, Refusal>> for Answer {
    fn from(answer: Result<u16, Refusal>) -> Answer {
        match answer {
            Ok(number) => Answer::Ok(number),
            Err(refusal) => Answer::No {
                refusal: refusal.number() as u16,
                second: refusal.second(),
            },
        }
    }
}

impl fmt::Display for Answer {
    fn fmt(&self, f: &mut fmt::Formatter) -> fmt::Result {
        match self {
            Answer::Ok(number) => write!(f, "ok {number}"),
            Answer::No { refusal, second } => write!(f, "no {refusal} {second}"),
        }
    }
}
