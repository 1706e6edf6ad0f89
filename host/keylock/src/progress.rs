//! A line that tells how far a long work has come. It is rewritten in place and
//! cleared at the end.

use crate::figures::grouped;
use std::io::{self, IsTerminal, Write};
use std::time::{Duration, Instant};

/// Work that is done before this shows no line.
const PATIENCE: Duration = Duration::from_millis(500);
const BETWEEN: Duration = Duration::from_millis(100);

/// How far a work has come. Dropping it clears the line.
pub struct Progress {
    out: Option<Box<dyn Write>>,
    unit: &'static str,
    total: usize,
    next: Instant,
    /// The characters of the line that is shown.
    width: usize,
}

impl Progress {
    /// On standard error, if that is a terminal. The unit is a plural: `records`.
    pub fn new(total: usize, unit: &'static str) -> Progress {
        let stderr = io::stderr();
        let out: Option<Box<dyn Write>> = match stderr.is_terminal() {
            true => Some(Box::new(stderr)),
            false => None,
        };
        Progress {
            out,
            unit,
            total,
            next: Instant::now() + PATIENCE,
            width: 0,
        }
    }

    /// On any writer, from this long after the start.
    pub fn on(out: Box<dyn Write>, after: Duration, total: usize, unit: &'static str) -> Progress {
        Progress {
            out: Some(out),
            unit,
            total,
            next: Instant::now() + after,
            width: 0,
        }
    }

    /// So many are done.
    pub fn at(&mut self, done: usize) {
        if self.out.is_none() {
            return;
        }
        let now = Instant::now();
        if now >= self.next {
            self.next = now + BETWEEN;
            let (done, total) = (grouped(done), grouped(self.total));
            self.show(&format!("keylock: {done} of {total} {}", self.unit));
        }
    }

    fn show(&mut self, line: &str) {
        let width = self.width;
        self.width = line.len();
        if let Some(out) = &mut self.out {
            // A line that can't be shown is no reason to stop.
            let _ = write!(out, "\r{line:<width$}");
            let _ = out.flush();
        }
    }
}

impl Drop for Progress {
    fn drop(&mut self) {
        if self.width > 0 {
            self.show("");
            self.show("");
        }
    }
}
