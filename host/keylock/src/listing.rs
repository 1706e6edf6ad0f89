//! The lock list of a segment as `keylock locks` prints it.

use crate::answer::Answer;
use rotundaaloe::limits::MOST_PRODUCTS;
use rotundaaloe::{Guard, LockRow, Operations, Refusal, Segment, User};

/// The guard's answer, `ok N` or `no N M`, and under it a line for each row that
/// it fills. So many rows are lent, enough if that is left out.
pub fn shown(guard: &Guard, user: User, segment: Segment, lent: Option<usize>) -> String {
    let (answer, rows) = match listed(guard, user, segment, lent) {
        Ok(rows) => (Ok(rows.len() as u16), rows),
        Err(refusal) => (Err(refusal), Vec::new()),
    };
    let mut shown = format!("{}\n", Answer::from(answer));
    for row in &rows {
        shown = shown + &line(row) + "\n";
    }
    shown
}

/// More rows than a list can fill change nothing, so no more are made.
fn listed(
    guard: &Guard,
    user: User,
    segment: Segment,
    lent: Option<usize>,
) -> Result<Vec<LockRow>, Refusal> {
    let lent = lent.map_or(MOST_PRODUCTS, |lent| lent.min(MOST_PRODUCTS));
    let mut rows = vec![LockRow::default(); lent];
    let filled = guard.list_locks(user, segment, &mut rows)?;
    rows.truncate(filled);
    Ok(rows)
}

/// A row: `2 4 grant S0 S1`, and without keys `2 4 grant`.
pub fn line(row: &LockRow) -> String {
    let Operations(operations) = row.operations;
    let effect = if row.deny { "deny" } else { "grant" };
    let mut line = format!("{} {operations} {effect}", row.lock.0);
    for key in &row.keys {
        line += &format!(" {key}");
    }
    line
}
