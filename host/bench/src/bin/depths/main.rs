//! Times one access at some depths by both guards and, where a JDK is at hand,
//! Java's check of the stack, in one run, and prints a table with ratios. There
//! is no limit.
//!
//! `bench/run` at the top of the repository runs it. With a file's name it
//! writes the plot's points there.

mod java;
mod report;
mod scene;

use bench::points;
use report::Row;
use scene::Scene;
use std::io;

const JAVA_RUNS: usize = 2;

/// Every scene by both guards.
fn pass() -> Vec<Row> {
    Scene::all().into_iter().map(Row::measured).collect()
}

/// The guards' passes and Java's runs alternate, so that a slow spell of the
/// machine doesn't fall on one side alone.
fn main() -> io::Result<()> {
    let mut rows = pass();
    let mut java = Ok(java::Times::default());
    for _ in 0..JAVA_RUNS {
        java = java.and_then(java::measured_again);
        for (row, again) in rows.iter_mut().zip(pass()) {
            row.keep_least(again);
        }
    }
    report::print(&rows, JAVA_RUNS + 1, &java);
    let java = java.unwrap_or_default();
    points::write_to_argument(&report::points(&rows, &java))
}
