//! The lock list as the history tells it: who owns the segment, and which locks
//! with which formulas stand on it, by the calls and answers alone.

use super::{History, Lock};
use crate::listing::Row;
use crate::operations::{EXECUTE, READ, WRITE};

impl History {
    /// All rows that a listing of the segment shows to the user, however many are
    /// lent. `None` where the user or the segment isn't handed out.
    pub fn listing(&self, user: u16, segment: u16) -> Option<Vec<Row>> {
        let owner = self.segment(segment)?.owner;
        if u32::from(user) >= self.issued().users {
            return None;
        }
        Some(if user == owner {
            self.owners_listing(segment)
        } else {
            self.colleagues_listing(segment)
        })
    }

    /// A row for each product of the standing locks' formulas.
    fn owners_listing(&self, segment: u16) -> Vec<Row> {
        let mut rows = Vec::new();
        for (number, lock) in self.standing_on(segment) {
            let sum = lock.formula.sum_of_products();
            for product in sum.expect("an accepted text fits") {
                let literals = product.literals().to_vec();
                rows.push(Row {
                    literals,
                    ..shown_to_all(number, lock)
                });
            }
        }
        rows
    }

    /// A row for each standing lock, whatever its formula.
    fn colleagues_listing(&self, segment: u16) -> Vec<Row> {
        self.standing_on(segment)
            .map(|(number, lock)| shown_to_all(number, lock))
            .collect()
    }

    /// The segment's standing locks with their numbers, by rising number.
    fn standing_on(&self, segment: u16) -> impl Iterator<Item = (u16, &Lock)> {
        self.standing()
            .filter(move |(_, lock)| lock.segment == segment)
    }
}

/// What everybody sees of a standing lock.
fn shown_to_all(number: u16, lock: &Lock) -> Row {
    let stands_for = |operation: &u16| lock.stands_for(lock.segment, *operation);
    Row {
        lock: number,
        operations: [EXECUTE, READ, WRITE].into_iter().filter(stands_for).sum(),
        denies: lock.denies(),
        literals: Vec::new(),
    }
}
