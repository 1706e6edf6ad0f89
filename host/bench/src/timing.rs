//! Times of both guards in one run: the least of some means, their rounds
//! alternating.

use std::time::{Duration, Instant};

pub const ROUNDS: usize = 25;
/// How long one side's round lasts, or a little more.
const ROUND: Duration = Duration::from_millis(4);

/// Nanoseconds a call, over `calls` calls.
fn mean(calls: u32, mut call: impl FnMut()) -> f64 {
    let start = Instant::now();
    for _ in 0..calls {
        call();
    }
    start.elapsed().as_nanos() as f64 / f64::from(calls)
}

/// As many calls as take [`ROUND`].
fn calls_for_a_round(mut call: impl FnMut()) -> u32 {
    let mut calls = 16;
    while mean(calls, &mut call) * f64::from(calls) < ROUND.as_nanos() as f64 {
        calls *= 2;
    }
    calls
}

/// The least means, in nanoseconds a call.
pub struct Times {
    pub proved: f64,
    pub reference: f64,
}

impl Times {
    pub fn ratio(&self) -> f64 {
        self.proved / self.reference
    }
}

/// Measures both sides. Their rounds alternate, so that a slow spell of the
/// machine falls on both.
pub fn measure(mut proved: impl FnMut(), mut reference: impl FnMut()) -> Times {
    let proved_calls = calls_for_a_round(&mut proved);
    let reference_calls = calls_for_a_round(&mut reference);
    let mut least = Times {
        proved: f64::MAX,
        reference: f64::MAX,
    };
    for _ in 0..ROUNDS {
        least.proved = least.proved.min(mean(proved_calls, &mut proved));
        least.reference = least.reference.min(mean(reference_calls, &mut reference));
    }
    least
}
