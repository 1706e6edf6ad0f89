//! The lines under a call: why it is answered so, the locks, and what stands.

use super::paint::{Look, Paint};
use crate::steps::{
    Change, Judgement, Lock, OpenCall, Product, SegmentView, Step, ThreadView, Tried, shown_keys,
};
use crate::{listing, shown, words};
use rotundaaloe::LockRow;

/// The lines, each with its end and without its indent.
pub fn of(step: &Step, paint: Paint) -> String {
    let mut details = Details {
        paint,
        lines: String::new(),
    };
    details.step(step);
    details.lines
}

struct Details {
    paint: Paint,
    lines: String,
}

impl Details {
    fn step(&mut self, step: &Step) {
        if let Some(text) = &step.disagreement {
            let differ = format!("explanation and guard differ: {text}");
            self.line("WRONG", Look::Alarm, &differ);
        }
        if let (Some(false), Some(expected)) = (step.as_expected(), step.entry.expected) {
            self.line("WRONG", Look::Alarm, &format!("expected {expected}"));
        }
        if let Some(note) = &step.entry.note {
            self.line("note", Look::Plain, note);
        }
        self.line("why", Look::Plain, &step.reason);
        if let Some(judgement) = &step.judgement {
            self.judgement(judgement);
        }
        if let Some(segment) = &step.segment {
            self.segment(segment);
        }
        for thread in step.thread.iter().chain(&step.losing) {
            self.thread(thread);
        }
    }

    fn judgement(&mut self, judgement: &Judgement) {
        if judgement.locks.is_empty() {
            return self.line("locks", Look::Plain, "none for this operation");
        }
        if judgement.operation == 1 {
            let keys = shown_keys(&judgement.keys);
            let text = format!("with the keys before the call: {keys}");
            self.line("tried", Look::Plain, &text);
        }
        for tried in &judgement.locks {
            let decides = judgement.decided == Some(tried.lock.number);
            let opens = match judgement.rank(tried) {
                Some(_) => format!("opens with {}", tried.keys_in_words()),
                None => "opens".to_string(),
            };
            self.tried(tried, &opens, decides);
        }
    }

    fn tried(&mut self, tried: &Tried, opens: &str, decides: bool) {
        let state = match (tried.opens(), decides) {
            (_, true) => format!("{opens} and decides"),
            (true, false) => opens.to_string(),
            (false, false) => "stays shut".to_string(),
        };
        let look = match (tried.opens(), tried.lock.denies()) {
            (true, false) => Look::Good,
            (true, true) => Look::Bad,
            (false, _) => Look::Quiet,
        };
        self.line("lock", look, &format!("{}: {state}", lock(&tried.lock)));
        for product in &tried.products {
            self.line("", Look::Plain, &format!("  {}", product_line(product)));
        }
    }

    fn segment(&mut self, segment: &SegmentView) {
        let kind = if segment.sheet { "sheet" } else { "code" };
        let (said, owner) = (&segment.said, &segment.owner_said);
        let keys = shown_keys(&segment.keys);
        self.line(kind, Look::Plain, &format!("{said} of {owner} [{keys}]"));
        for standing in &segment.locks {
            self.line("lock", Look::Plain, &lock(standing));
        }
        self.list("owner", "sees", &segment.lists.owners);
        self.list("others", "see", &segment.lists.colleagues);
    }

    /// The lock list's rows, as `keylock locks` prints them.
    fn list(&mut self, label: &str, verb: &str, rows: &[LockRow]) {
        if !rows.is_empty() {
            let rows: Vec<String> = rows.iter().map(listing::line).collect();
            let text = format!("{verb} {}", rows.join("; "));
            self.line(label, Look::Plain, &text);
        }
    }

    fn thread(&mut self, thread: &ThreadView) {
        let (said, number, user) = (&thread.said, thread.number, thread.user);
        if let Change::Ended(closed) = &thread.change {
            if !closed.is_empty() {
                let text = format!("{said}{}", open_calls(closed));
                self.line("closed", Look::Plain, &text);
            }
            return;
        }
        let mut stack = format!("{said} [U{user} R{number}]{}", open_calls(&thread.calls));
        match &thread.change {
            Change::Called => stack += "  (just called)",
            Change::Left(left) => stack += &format!("  (just left: {})", open_call(left)),
            Change::Nothing | Change::Started | Change::Ended(_) => {}
        }
        self.line("stack", Look::Plain, &stack);
        self.line("keys", Look::Plain, &shown_keys(&thread.keys));
    }

    /// A line with its label.
    fn line(&mut self, label: &str, look: Look, text: &str) {
        let label = self.paint.text(Look::Quiet, &format!("{label:6}"));
        let text = self.paint.text(look, text);
        self.lines += &format!("{label}  {text}\n");
    }
}

/// `segment 0 [S0 D1; D0 taken in step 12]`
fn open_call(call: &OpenCall) -> String {
    let taken = call.taken.iter();
    let taken = taken.map(|taken| format!("{} {}", taken.key, taken.when()));
    let taken: Vec<String> = taken.collect();
    let keys = shown_keys(&call.keys);
    match taken.is_empty() {
        true => format!("{} [{keys}]", call.said),
        false => format!("{} [{keys}; {}]", call.said, taken.join(", ")),
    }
}

/// ` > segment 0 [S0] > segment 1 [S1], 15 times`
fn open_calls(calls: &[OpenCall]) -> String {
    let runs = calls.chunk_by(|call, next| call == next);
    let shown = runs.map(|run| match run.len() {
        1 => format!(" > {}", open_call(&run[0])),
        times => format!(" > {}, {times} times", open_call(&run[0])),
    });
    shown.collect()
}

fn lock(lock: &Lock) -> String {
    let verb = words::verb(lock.denies());
    let operations = words::operations(lock.operations & 7);
    let text = shown::bytes(&lock.text);
    format!("{} {verb} {operations} if {text}", lock.number)
}

/// `S0 & S1: shut. S0 is missing: segment 0 hands it over, and this thread has no
/// open call of it`
fn product_line(product: &Product) -> String {
    let literals = product.literals.iter();
    let literals: Vec<String> = literals.map(|tried| tried.literal.to_string()).collect();
    let literals = literals.join(" & ");
    if product.opens {
        let sources = product.sources();
        return match sources.is_empty() {
            true => format!("{literals}: opens"),
            false => format!("{literals}: opens, {sources}"),
        };
    }
    format!("{literals}: shut. {}", product.against().join("; "))
}
