//! The lock list as the guard answers it. It changes nothing in the state.

use super::{Guard, Lock, Refusal, Segment};
use crate::listing::Row;
use crate::operations::DENY;

impl Guard {
    /// Lists a segment's standing locks for a user in the first of the lent rows.
    /// Answers how many it fills; the others stay, and after a refusal all of
    /// them.
    pub fn list(&self, user: u16, segment: u16, lent: &mut [Row]) -> Result<usize, Refusal> {
        self.known_user(user)?;
        let rows = self.known_segment(segment)?.rows_for(user);
        let filled = lent.get_mut(..rows.len()).ok_or(Refusal::TooFewRows)?;
        filled.clone_from_slice(&rows);
        Ok(rows.len())
    }
}

impl Segment {
    fn rows_for(&self, user: u16) -> Vec<Row> {
        if user == self.owner {
            self.locks.iter().flat_map(Lock::rows).collect()
        } else {
            self.locks.iter().map(Lock::blank_row).collect()
        }
    }
}

impl Lock {
    /// A row for each product.
    fn rows(&self) -> impl Iterator<Item = Row> {
        self.products.iter().map(|product| Row {
            literals: product.literals().to_vec(),
            ..self.blank_row()
        })
    }

    /// What anyone may see.
    fn blank_row(&self) -> Row {
        Row {
            lock: self.number,
            operations: self.operations & !DENY,
            denies: self.denies(),
            literals: Vec::new(),
        }
    }
}
