//! A host in miniature: the totals may be saved only by way of the rate loader.
//!
//! ```sh
//! cargo run --release --manifest-path host/Cargo.toml --example route
//! ```

use rotundaaloe::{Access, Guard, Kind, Lock, Operations, Refusal, refusal};

/// What a save's answer means to the person at the sheet.
fn tell(what: &str, answer: Result<Lock, refusal::Access>) {
    match answer {
        Ok(lock) => println!("{what}: saved, {lock} opened"),
        Err(refusal::Access::Denied(lock)) => println!("{what}: not saved, {lock} forbids it"),
        Err(refused) => println!("{what}: not saved, {refused}"),
    }
}

fn main() -> Result<(), Refusal> {
    let mut guard = Guard::new();
    let owner = guard.new_user()?;
    let january = guard.start_thread(owner)?;
    let loader = guard.new_segment(january, Kind::Code)?;
    let recalculation = guard.new_segment(january, Kind::Code)?;
    let totals = guard.new_segment(january, Kind::Sheet)?;
    guard.add_lock(january, loader, Operations::EXECUTE, "U0")?;
    guard.add_lock(january, recalculation, Operations::EXECUTE, "U0")?;
    let route = format!("{loader}&{recalculation}");
    guard.add_lock(january, totals, Operations::WRITE, &route)?;

    guard.call_segment(january, loader)?;
    guard.call_segment(january, recalculation)?;
    let saved = guard.access(january, totals, Access::Write);
    tell("by way of the rate loader", saved);

    let february = guard.start_thread(owner)?;
    guard.call_segment(february, recalculation)?;
    let saved = guard.access(february, totals, Access::Write);
    tell("the recalculation by itself", saved);

    guard.return_call(january)?;
    let saved = guard.access(january, totals, Access::Write);
    tell("after the return", saved);
    Ok(())
}
