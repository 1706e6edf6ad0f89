//! The tables of the times, and the plot's points.

use crate::java;
use crate::scene::{Measured, Outcome, Scene};
use bench::points::{Panel, Point, Series};
use bench::route::DEPTHS;
use bench::timing::{ROUNDS, Times};

pub struct Row {
    scene: Scene,
    times: Measured,
}

impl Row {
    pub fn measured(scene: Scene) -> Row {
        let times = scene.measured();
        Row { scene, times }
    }

    pub fn keep_least(&mut self, other: Row) {
        let (ours, theirs) = (&mut self.times, other.times);
        keep_least(&mut ours.access, theirs.access);
        keep_least(&mut ours.route, theirs.route);
    }

    /// The access, the depth, and who has handed the keys over, in cells.
    fn name(&self) -> String {
        let Scene { depth, holder } = self.scene;
        format!(
            "{} | {depth} | {}",
            self.scene.outcome().name(),
            holder.name()
        )
    }

    fn java(&self, java: &java::Times) -> Option<f64> {
        java.at(self.scene.outcome(), self.scene.depth)
    }
}

fn keep_least(times: &mut Times, others: Times) {
    times.proved = times.proved.min(others.proved);
    times.reference = times.reference.min(others.reference);
}

/// Both times and their ratio, in cells.
fn cells(times: &Times) -> String {
    let Times { proved, reference } = times;
    format!("{proved:.1} | {reference:.1} | {:.2}", reference / proved)
}

/// A number of Java's, or what stands for none.
fn java_cell(number: Option<f64>, decimals: usize) -> String {
    number.map_or("-".to_string(), |number| format!("{number:.decimals$}"))
}

pub fn print(rows: &[Row], passes: usize, java: &Result<java::Times, String>) {
    println!(
        "A thread with as many open calls writes to a sheet with one lock, which asks for two D \
         keys; the open call that is named has handed both over. Nanoseconds of one A by its own \
         function, the same over and over: the least mean of {ROUNDS} alternating rounds in each \
         of {passes} passes. There is no limit.\n"
    );
    match java {
        Ok(java) => println!(
            "Java {} is `AccessController.checkPermission` with as many frames on the stack, each \
             of a protection domain of its own that grants the permission among eight; where it \
             refuses, the oldest doesn't. It is run between the passes. The two don't do the same \
             work: Java walks the real stack, asks every domain, and refuses by an exception. The \
             guard keeps a stack of its own, which C and R pay for, and asks the sheet's lock.\n",
            java.version()
        ),
        Err(reason) => println!("Java's check of the stack isn't measured: {reason}.\n"),
    }
    let none = java::Times::default();
    let java = java.as_ref().unwrap_or(&none);
    print_accesses(rows, java);
    print_routes(rows, java);
}

fn print_accesses(rows: &[Row], java: &java::Times) {
    println!(
        "| Access | Depth | Keys from | Proved | Reference | Reference / proved | Java | Java / \
         proved |"
    );
    println!("|---|---:|---|---:|---:|---:|---:|---:|");
    for row in rows {
        let (access, theirs) = (&row.times.access, row.java(java));
        let ratio = theirs.map(|theirs| theirs / access.proved);
        println!(
            "| {} | {} | {} | {} |",
            row.name(),
            cells(access),
            java_cell(theirs, 0),
            java_cell(ratio, 1)
        );
    }
}

fn print_routes(rows: &[Row], java: &java::Times) {
    println!(
        "\nThe whole route: a C for each open call, the A, and an R for each. In Java a call and a \
         return do nothing for the check, so its check stands against the whole route here.\n"
    );
    println!(
        "| Access | Depth | Keys from | Proved route | Reference route | Reference / proved | \
         Java / proved route |"
    );
    println!("|---|---:|---|---:|---:|---:|---:|");
    for row in rows {
        let route = &row.times.route;
        let ratio = row.java(java).map(|theirs| theirs / route.proved);
        println!(
            "| {} | {} | {} |",
            row.name(),
            cells(route),
            java_cell(ratio, 1)
        );
    }
}

/// A granted access, each guard in the dearer of its scenes at a depth.
pub fn points(rows: &[Row], java: &java::Times) -> Vec<Point> {
    let dearer = |depth: u16, time: fn(&Measured) -> f64| {
        let rows = rows.iter().filter(|row| row.scene.depth == depth);
        rows.filter(|row| row.scene.outcome() == Outcome::Granted)
            .map(|row| time(&row.times))
            .reduce(f64::max)
    };
    let times = |depth| {
        [
            (Series::Proved, dearer(depth, |times| times.access.proved)),
            (
                Series::ProvedRoute,
                dearer(depth, |times| times.route.proved),
            ),
            (
                Series::Reference,
                dearer(depth, |times| times.access.reference),
            ),
            (Series::Java, java.at(Outcome::Granted, depth)),
        ]
    };
    let mut points = Vec::new();
    for depth in DEPTHS {
        for (series, time) in times(depth) {
            points.extend(time.map(|y| Point {
                panel: Panel::Nanoseconds,
                series,
                x: f64::from(depth),
                y,
            }));
        }
    }
    points
}
