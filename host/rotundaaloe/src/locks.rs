//! The lock list (document 02, P1): a segment's standing locks, as a user may see
//! them. Its owner sees how each is opened; anyone else sees that it is there.

use crate::formula::{Key, Literal};
use crate::guard::{Guard, answered};
use crate::limits::MOST_PRODUCTS;
use crate::numbers::{Defined, Lock, Operations, Segment, Thread, User};
use crate::raw;
use crate::refusal::{self, Refusal};

/// A product of a lock, for the segment's owner, or a whole lock, for anyone
/// else.
#[derive(Clone, Debug, PartialEq, Eq)]
pub struct LockRow {
    pub lock: Lock,
    /// Those that it grants or denies, and never denied ones: `deny` says that.
    pub operations: Operations,
    pub deny: bool,
    /// The product's, in its order. Every product has one or more, so none are
    /// blank ones.
    pub keys: Vec<Literal>,
}

/// A row to lend.
impl Default for LockRow {
    fn default() -> LockRow {
        LockRow::of(&Default::default())
    }
}

impl LockRow {
    fn of(row: &raw::LockRow) -> LockRow {
        let [[lock, operations, deny], slots @ ..] = row;
        LockRow {
            lock: Lock(*lock),
            operations: Operations(*operations),
            deny: *deny != 0,
            keys: slots.iter().filter_map(key).collect(),
        }
    }
}

/// What stands in a slot, if it isn't blank.
fn key(&[letter, number, barred]: &[u16; 3]) -> Option<Literal> {
    let key = match u8::try_from(letter) {
        Ok(0) => return None,
        Ok(b'U') => Key::User(User(number)),
        Ok(b'R') => Key::Thread(Thread(number)),
        Ok(b'S') => Key::Segment(Segment(number)),
        Ok(b'D') => Key::Defined(Defined(number)),
        _ => unreachable!("the listing's contract has no letter {letter}"),
    };
    Some(match barred {
        0 => Literal::Plain(key),
        _ => Literal::Barred(key),
    })
}

impl Guard {
    /// The segment's standing locks, by rising number, as the user may see them:
    /// for its owner a row for each product, in the formula's order, and for
    /// anyone else a row for each lock, without keys. That the user is who they
    /// say, the host vouches for.
    pub fn locks(&self, user: User, segment: Segment) -> Result<Vec<LockRow>, refusal::Locks> {
        let listed = self.listed(user, segment, MOST_PRODUCTS);
        listed.map_err(refusal::Locks::of)
    }

    /// The same in the first of the lent rows. Answers how many it fills; the
    /// others stay, and after a refusal all of them.
    pub fn list_locks(
        &self,
        user: User,
        segment: Segment,
        rows: &mut [LockRow],
    ) -> Result<usize, refusal::ListLocks> {
        let listed = self.listed(user, segment, rows.len());
        let listed = listed.map_err(refusal::ListLocks::of)?;
        let filled = listed.len();
        for (row, listed) in rows.iter_mut().zip(listed) {
            *row = listed;
        }
        Ok(filled)
    }

    /// With so many rows lent. No listing needs more than a segment has products.
    fn listed(&self, user: User, segment: Segment, lent: usize) -> Result<Vec<LockRow>, Refusal> {
        let mut rows = [raw::LockRow::default(); MOST_PRODUCTS];
        let lent = &mut rows[..lent.min(MOST_PRODUCTS)];
        let filled = answered(raw::list_locks(self.cells(), user.0, segment.0, lent))?;
        Ok(lent[..usize::from(filled)]
            .iter()
            .map(LockRow::of)
            .collect())
    }
}
