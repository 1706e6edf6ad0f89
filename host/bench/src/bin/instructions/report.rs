//! The tables of the counts, and which limits they pass.

use crate::callgrind::CHECK;
use crate::checks::{self, Case, LITERALS, PRODUCTS};
use crate::counting::{EMPTY, PROVED, REFERENCE, count_name};
use crate::grants::Grants;
use crate::limits::LIMITS;
use crate::listings::LISTINGS;
use crate::scenes::{AWAY, HOME, PAIRS, Pair, call_name, the_twelve, twelve_name};
use crate::searches;
use crate::takes::TAKES;
use bench::points::{Panel, Point, Series};
use bench::route::DEPTHS;
use reference::letter::Letter;
use std::collections::{BTreeSet, HashMap};

/// Document 000's instructions of one C with one inherited key and two products
/// of two literals, and of one R.
const CALL_000: u64 = 305;
const RETURN_000: u64 = 40;

/// The products of a check whose instructions are plotted.
const PLOTTED_PRODUCTS: u16 = 2;

/// A scene's counts. Those of counting itself aren't among them.
#[derive(Clone, Copy)]
struct Counts {
    proved: u64,
    reference: u64,
}

impl Counts {
    fn ratio(self) -> f64 {
        self.proved as f64 / self.reference as f64
    }

    /// Both counts and their ratio, as the last columns of a table.
    fn columns(self) -> String {
        let Counts { proved, reference } = self;
        format!("{proved} | {reference} | {:.2}", self.ratio())
    }
}

/// Document 000's instructions of a check, for n products of m literals.
fn document_000(m: u16, n: u16) -> f64 {
    let (m, n) = (f64::from(m), f64::from(n));
    (17.0 * m * m + 49.0 * m + 25.0) * n / 2.0 + 3.0
}

/// Whether the check of products of m literals is limited by document 000's.
fn is_limited(m: u16) -> bool {
    m >= 2
}

/// What stands behind a number past its limit.
fn mark(kept: bool) -> &'static str {
    if kept { "" } else { " !" }
}

/// A row of a ratio that must be below 1. The table of its points says where it
/// isn't.
fn print_ratio_limit(name: &str, ratio: f64) {
    println!("| {name} | {ratio:.2}{} | below 1 |", mark(ratio < 1.0));
}

/// The cases among which each guard's dearest is sought.
fn is_worst(case: Case) -> bool {
    !matches!(case, Case::Barred | Case::FirstOpens)
}

/// Prints a row of the least and the greatest ratio of m and n, and how many
/// aren't below 1.
fn print_ratio_row(name: &str, depth: u16, counts: impl Fn(u16, u16) -> Counts) {
    let points = LITERALS.flat_map(|m| PRODUCTS.map(move |n| (m, n)));
    let ratios: Vec<f64> = points.map(|(m, n)| counts(m, n).ratio()).collect();
    let least = ratios.iter().copied().fold(f64::MAX, f64::min);
    let greatest = ratios.iter().copied().fold(0.0, f64::max);
    let above = ratios.iter().filter(|ratio| **ratio >= 1.0).count();
    println!("| {name} | {depth} | {least:.2} | {greatest:.2} | {above} |");
}

/// The threads of a row, and where they stand.
fn threads_name(threads: &[u16]) -> String {
    match threads {
        [AWAY] => format!("{AWAY}, which stands elsewhere"),
        home => {
            let home: Vec<String> = home.iter().map(u16::to_string).collect();
            home.join(", ")
        }
    }
}

fn listed(numbers: &BTreeSet<u64>) -> String {
    let numbers: Vec<String> = numbers.iter().map(u64::to_string).collect();
    numbers.join(", ")
}

pub struct Report {
    /// From a call to its return, by the guard and the scene.
    calls: HashMap<String, u64>,
    /// The proved guard's own check, by the scene.
    checks: HashMap<String, u64>,
    missed: Vec<String>,
}

impl Report {
    pub fn new(calls: HashMap<String, u64>, checks: HashMap<String, u64>) -> Report {
        Report {
            calls,
            checks,
            missed: Vec::new(),
        }
    }

    /// The plot's points: one check of [`PLOTTED_PRODUCTS`] at depth 1, each
    /// guard in its dearest scene.
    pub fn points(&self) -> Vec<Point> {
        let mut points = Vec::new();
        for m in LITERALS {
            let Counts { proved, reference } = self.worst(m, PLOTTED_PRODUCTS, 1);
            for (series, y) in [
                (Series::Proved, proved as f64),
                (Series::Reference, reference as f64),
                (Series::Document000, document_000(m, PLOTTED_PRODUCTS)),
            ] {
                points.push(Point {
                    panel: Panel::Instructions,
                    series,
                    x: f64::from(m),
                    y,
                });
            }
        }
        points
    }

    /// Prints every table. Answers how many limits are missed.
    pub fn print(mut self) -> usize {
        self.print_limits();
        self.print_checks();
        self.print_grants();
        self.print_calls();
        self.print_the_twelve();
        self.print_takes();
        self.print_listings();
        self.print_searches();
        if self.missed.is_empty() {
            println!("\nEvery limit on instructions is kept.");
        } else {
            println!(
                "\nLimits on instructions that are missed: {}.\n",
                self.missed.len()
            );
            for missed in &self.missed {
                println!("- {missed}");
            }
        }
        self.missed.len()
    }

    /// A guard's count of a call, less that of nothing.
    fn call(&self, guard: &str, scene: &str) -> u64 {
        let count = |name: &str| *self.calls.get(name).expect(name);
        count(&count_name(guard, scene)) - count(EMPTY)
    }

    /// Of a check the proved guard's count is that of its own function.
    fn proved(&self, scene: &str) -> u64 {
        match self.checks.get(scene) {
            Some(count) => *count,
            None => self.call(PROVED, scene),
        }
    }

    fn counts(&self, scene: &str) -> Counts {
        Counts {
            proved: self.proved(scene),
            reference: self.call(REFERENCE, scene),
        }
    }

    /// The limits, each with what it is on.
    fn print_limits(&mut self) {
        println!("### Limits\n");
        println!(
            "C, A and R are by their own functions, C and R for the threads {}, each at its own \
             place, which must take the same; T is by its letter. A ratio is the greatest of its \
             table below.\n",
            threads_name(&HOME)
        );
        println!("| Counted | Proved | Limit |");
        println!("|---|---:|---:|");
        for (limited, most) in LIMITS {
            let scenes = limited.scenes();
            let proved: BTreeSet<u64> = scenes.iter().map(|scene| self.proved(scene)).collect();
            let kept = proved.len() == 1 && proved.iter().all(|count| *count <= most);
            let (name, proved) = (limited.name(), listed(&proved));
            println!("| {name} | {proved}{} | {most} |", mark(kept));
            if !kept {
                let missed = format!("{name}: {proved}, the limit is {most}.");
                self.missed.push(missed);
            }
        }
        let limited = self.greatest(|report, m, n| {
            let counted = report.check(Case::FirstFails, m, n, 1).proved as f64;
            is_limited(m).then(|| counted / document_000(m, n))
        });
        let name = "the check / document 000, plain keys, m of 2 and more, depth 1";
        print_ratio_limit(name, limited);
        for depth in DEPTHS {
            let greatest = self.greatest(|report, m, n| Some(report.worst(m, n, depth).ratio()));
            let name = format!(
                "the check / the reference's, each in its own dearest scene, depth {depth}"
            );
            print_ratio_limit(&name, greatest);
        }
    }

    /// The greatest of a table's ratios.
    fn greatest(&self, ratio: impl Fn(&Report, u16, u16) -> Option<f64>) -> f64 {
        let points = LITERALS.flat_map(|m| PRODUCTS.map(move |n| (m, n)));
        let ratios = points.filter_map(|(m, n)| ratio(self, m, n));
        ratios.fold(0.0, f64::max)
    }

    /// A table of m and n. `cell` writes a place of it, and says whether the
    /// limit is kept there.
    fn print_grid(&mut self, title: &str, cell: impl Fn(&Report, u16, u16) -> (String, bool)) {
        println!("\n{title}\n");
        let columns: Vec<String> = PRODUCTS.map(|n| format!("n = {n}")).collect();
        println!("| m | {} |", columns.join(" | "));
        println!("|---|{}", "---:|".repeat(PRODUCTS.count()));
        let mut missed = Vec::new();
        for m in LITERALS {
            let row: Vec<String> = PRODUCTS
                .map(|n| {
                    let (text, kept) = cell(self, m, n);
                    if !kept {
                        missed.push(format!("m {m}, n {n}"));
                    }
                    text + mark(kept)
                })
                .collect();
            println!("| {m} | {} |", row.join(" | "));
        }
        if !missed.is_empty() {
            let places = missed.join("; ");
            self.missed.push(format!(
                "{title} Missed at {} of 48 points: {places}.",
                missed.len()
            ));
        }
    }

    fn print_checks(&mut self) {
        println!("\n### The check\n");
        println!(
            "Counted of the proved guard is what it runs inside an A: `{CHECK}`, from its entry to \
             its return, while `rotundaaloe_raw_access` is called. Of the reference it is `check`, \
             from the call to its return, with the call's own instructions."
        );
        for case in [Case::FirstFails, Case::Barred] {
            let limited = case == Case::FirstFails;
            let limit = if limited {
                ", below 1 for every m of 2 and more"
            } else {
                "; the ratio has no limit"
            };
            let name = case.name();
            let title = format!("Depth 1, {name}. Proved / document 000 = ratio{limit}.");
            self.print_grid(&title, |report, m, n| {
                let proved = report.check(case, m, n, 1).proved as f64;
                let theirs = document_000(m, n);
                let text = format!("{proved} / {theirs} = {:.2}", proved / theirs);
                (text, !limited || !is_limited(m) || proved < theirs)
            });
        }
        for depth in DEPTHS {
            let title = format!(
                "Depth {depth}, each guard in its own dearest scene of the first four cases below. \
                 Proved / reference = ratio, below 1."
            );
            self.print_grid(&title, |report, m, n| {
                let counts = report.worst(m, n, depth);
                let Counts { proved, reference } = counts;
                let text = format!("{proved} / {reference} = {:.2}", counts.ratio());
                (text, proved < reference)
            });
        }
        self.print_ratios();
    }

    /// The most that each guard takes at a point, in whichever scene that is.
    fn worst(&self, m: u16, n: u16, depth: u16) -> Counts {
        let cases = Case::ALL.into_iter().filter(|case| is_worst(*case));
        cases
            .filter(|case| case.depths().contains(&depth))
            .map(|case| self.check(case, m, n, depth))
            .reduce(|a, b| Counts {
                proved: a.proved.max(b.proved),
                reference: a.reference.max(b.reference),
            })
            .expect("a case for every depth")
    }

    fn check(&self, case: Case, m: u16, n: u16, depth: u16) -> Counts {
        self.counts(&checks::name(case, m, n, depth))
    }

    /// The ratios of both guards on the same scene, case by case.
    fn print_ratios(&self) {
        println!(
            "\nBoth guards on the same scene, without a limit: the ratios of 48 points each.\n"
        );
        println!("| Case | Depth | Least | Greatest | Points not below 1 |");
        println!("|---|---:|---:|---:|---:|");
        for case in Case::ALL {
            for depth in case.depths() {
                print_ratio_row(case.name(), *depth, |m, n| self.check(case, m, n, *depth));
            }
        }
    }

    /// Only eight equal and eight rising locks have a limit, at depth 1.
    fn print_grants(&self) {
        println!("\n### Several grant locks that open\n");
        println!(
            "Counted as in the tables of the check. Each lock is one product of keys that the \
             oldest open call has handed over, and all of them open. The one with the most \
             literals answers, the first of equal ones.\n"
        );
        println!("| Locks | Literals | Depth | Lock that answers | Proved | Reference | Ratio |");
        println!("|---|---|---:|---:|---:|---:|---:|");
        for grants in Grants::ALL {
            let literals: Vec<String> = grants.literals().iter().map(usize::to_string).collect();
            let (name, literals) = (grants.name(), literals.join(", "));
            let answers = grants.answering() + 1;
            for depth in grants.depths() {
                let counts = self.counts(&grants.scene_name(*depth)).columns();
                println!("| {name} | {literals} | {depth} | {answers} | {counts} |");
            }
        }
    }

    fn print_calls(&self) {
        println!("\n### C and R\n");
        println!("| Call | Products | Thread | Proved | Document 000 | Reference | Ratio |");
        println!("|---|---|---|---:|---:|---:|---:|");
        for pair in PAIRS {
            self.print_call(Letter::CallSegment, pair, CALL_000);
        }
        self.print_call(Letter::ReturnCall, PAIRS[0], RETURN_000);
    }

    /// The rows of C or R, by its own function and by the entry.
    fn print_call(&self, letter: Letter, pair: Pair, theirs: u64) {
        let products = pair.texts.map(|text| format!("`{text}`")).join(", ");
        let name = letter.char();
        for entry in [false, true] {
            let call = match entry {
                true => format!("{name} by its letter"),
                false => name.to_string(),
            };
            for threads in [&HOME[..], &[AWAY]] {
                let counts: Vec<Counts> = threads
                    .iter()
                    .map(|thread| self.counts(&call_name(letter, entry, pair, *thread)))
                    .collect();
                let proved: BTreeSet<u64> = counts.iter().map(|counts| counts.proved).collect();
                let reference: BTreeSet<u64> =
                    counts.iter().map(|counts| counts.reference).collect();
                let ratio = counts
                    .iter()
                    .map(|counts| counts.ratio())
                    .fold(0.0, f64::max);
                let theirs = match entry || threads == [AWAY] {
                    true => String::new(),
                    false => theirs.to_string(),
                };
                println!(
                    "| {call} | {products} | {} | {} | {theirs} | {} | {ratio:.2} |",
                    threads_name(threads),
                    listed(&proved),
                    listed(&reference),
                );
            }
        }
    }

    fn print_the_twelve(&self) {
        println!("\n### The twelve calls\n");
        println!("| Call | Proved | Reference | Ratio |");
        println!("|---|---:|---:|---:|");
        for (record, _) in the_twelve() {
            let letter = Letter::of(record.letter).expect("a call's letter");
            for entry in [true, false] {
                let name = twelve_name(letter, entry);
                if !self.calls.contains_key(&count_name(PROVED, &name)) {
                    continue;
                }
                let counts = self.counts(&name);
                let mut call = format!("{} {} {} {}", letter.char(), record.a, record.b, record.c);
                if !record.text.is_empty() {
                    call += &format!(" `{}`", record.text.escape_ascii());
                }
                println!(
                    "| {call}{} | {} |",
                    if entry { "" } else { ", by its own function" },
                    counts.columns()
                );
            }
        }
    }

    /// T of a key that no open call hands over has no limit.
    fn print_takes(&self) {
        println!("\n### T and the open calls\n");
        println!(
            "Counted is T by its letter: it takes the key out of the segment's list and out of \
             every open call of the segment. The small state is that of the twelve calls. In the \
             other scenes 64 threads have 16 open calls each, and the segment's list is full. On \
             the fullest state each thread has called sixteen segments once each; all of them have \
             handed the key over, or none where it was given after the calls. In the last scene \
             each thread has called the one segment 16 times.\n"
        );
        println!("| Counted | Open calls | That lose the key | Proved | Reference | Ratio |");
        println!("|---|---:|---:|---:|---:|---:|");
        for take in TAKES {
            let (name, open_calls, losing) = (take.name(), take.open_calls(), take.losing());
            let counts = self.counts(name).columns();
            println!("| {name} | {open_calls} | {losing} | {counts} |");
        }
    }

    /// The lock lists have no limit: a host asks for one rarely.
    fn print_listings(&self) {
        println!("\n### Lock list\n");
        println!(
            "Counted is `rotundaaloe_raw_list_locks`, of the reference `list`, from the call to \
             its return. A product has two literals. There is no limit.\n"
        );
        println!("| Sheet | User | Rows lent | Answer | Proved | Reference | Ratio |");
        println!("|---|---|---:|---:|---:|---:|---:|");
        for listing in LISTINGS {
            let columns = listing.columns().join(" | ");
            let counts = self.counts(&listing.name());
            println!("| {columns} | {} |", counts.columns());
        }
    }

    /// The key searches have no limit: a host asks for one when it explains.
    fn print_searches(&self) {
        println!("\n### Key search\n");
        println!(
            "Counted is `rotundaaloe_raw_find_key`, of the reference `find_key`, from the call to \
             its return. The oldest open call has handed over eight keys, any other its own alone. \
             There is no limit.\n"
        );
        println!("| Open calls | Key | Answer | Proved | Reference | Ratio |");
        println!("|---:|---|---:|---:|---:|---:|");
        for search in searches::all() {
            let columns = search.columns().join(" | ");
            let counts = self.counts(&search.name());
            println!("| {columns} | {} |", counts.columns());
        }
    }
}
