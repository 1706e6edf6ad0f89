//! Which lock answers (document 02, P6), told a third time and by itself: from which
//! products of a segment's locks open, and how many keys each has. The right choice,
//! and faulty ones that a comparison must tell from it.

use reference::formula::Literal;
use reference::guard::{Answer, Refusal};
use reference::history::{History, Verdict};
use reference::journal::Record;
use reference::limits::MAX_FRAMES;
use reference::operations::{DENY, EXECUTE, READ, WRITE};
use std::cmp::Reverse;

/// A product, with all of a choice that anyone could make by it.
#[derive(Clone, Copy, Debug)]
pub struct Product {
    pub opens: bool,
    pub plain: usize,
    pub barred: usize,
    /// Another product of the lock is a part of it.
    pub is_absorbed: bool,
}

impl Product {
    pub fn length(&self) -> usize {
        self.plain + self.barred
    }
}

/// A standing lock.
#[derive(Clone, Debug)]
pub struct Lock {
    pub number: u16,
    pub operations: u16,
    pub products: Vec<Product>,
}

impl Lock {
    /// A lock with these products, each with whether it opens. `is_barred` says it of
    /// a signed key.
    pub fn new<K: PartialEq>(
        number: u16,
        operations: u16,
        products: &[(bool, &[K])],
        is_barred: impl Fn(&K) -> bool,
    ) -> Lock {
        let product = |(opens, keys): &(bool, &[K])| {
            let barred = keys.iter().filter(|key| is_barred(key)).count();
            let is_part = |other: &[K]| {
                other.len() < keys.len() && other.iter().all(|key| keys.contains(key))
            };
            Product {
                opens: *opens,
                plain: keys.len() - barred,
                barred,
                is_absorbed: products.iter().any(|(_, other)| is_part(other)),
            }
        };
        Lock {
            number,
            operations,
            products: products.iter().map(product).collect(),
        }
    }

    pub fn denies(&self) -> bool {
        self.operations & DENY != 0
    }

    /// The lengths of the products that open, in order.
    pub fn lengths(&self) -> impl DoubleEndedIterator<Item = usize> {
        let opening = self.products.iter().filter(|product| product.opens);
        opening.map(Product::length)
    }

    pub fn opens(&self) -> bool {
        self.lengths().next().is_some()
    }

    /// By which one of those that open is the tightest.
    pub fn longest(&self) -> Option<usize> {
        self.lengths().max()
    }
}

/// What is wrong with a choice.
#[derive(Clone, Copy, Debug, PartialEq, Eq)]
pub enum Fault {
    /// The lowest grant lock, as before P6.
    Lowest,
    /// The highest.
    Highest,
    /// Of equal ones the highest.
    HighestOfEqual,
    /// The lock whose longest product is the shortest.
    Loosest,
    /// Products that don't open count too.
    ClosedCount,
    /// All keys of all products of a lock count.
    EveryKey,
    /// Barred keys don't count.
    PlainAlone,
    /// Plain keys don't count.
    BarredAlone,
    /// The keys of all products that open count.
    Sum,
    /// The products that open count, and not their keys.
    Products,
    /// A lock's first product that opens counts, its last, and its shortest.
    FirstProduct,
    LastProduct,
    ShortestProduct,
    /// `D0|D0&D1` is taken for `D0`.
    Simplified,
    /// Six keys count as five.
    Capped,
    /// Calls alone are answered by the new rule, or accesses alone.
    CallsAlone,
    AccessesAlone,
    /// Reads are answered by the lowest lock still, or writes.
    LowestReads,
    LowestWrites,
    /// Locks that stand for another operation answer too.
    EveryOperation,
    /// Of deny locks the longest is given.
    LongestDenies,
    /// Of deny locks the highest is given.
    HighestDenies,
    /// A longer grant lock outvotes a deny lock.
    Outvoted,
    /// A deny lock after a grant lock that opens isn't looked at.
    DenyFirst,
    /// A deny lock after the tightest grant lock isn't looked at.
    DenyBeforeTheTightest,
}

pub const FAULTS: [Fault; 25] = [
    Fault::Lowest,
    Fault::Highest,
    Fault::HighestOfEqual,
    Fault::Loosest,
    Fault::ClosedCount,
    Fault::EveryKey,
    Fault::PlainAlone,
    Fault::BarredAlone,
    Fault::Sum,
    Fault::Products,
    Fault::FirstProduct,
    Fault::LastProduct,
    Fault::ShortestProduct,
    Fault::Simplified,
    Fault::Capped,
    Fault::CallsAlone,
    Fault::AccessesAlone,
    Fault::LowestReads,
    Fault::LowestWrites,
    Fault::EveryOperation,
    Fault::LongestDenies,
    Fault::HighestDenies,
    Fault::Outvoted,
    Fault::DenyFirst,
    Fault::DenyBeforeTheTightest,
];

/// The answer that a verdict comes to.
pub fn answer_of(verdict: Verdict) -> Answer {
    match verdict {
        Verdict::Granted(lock) => Ok(lock),
        Verdict::Denied(lock) => Err(Refusal::Denied(lock)),
        Verdict::NotGranted => Err(Refusal::NotGranted),
        Verdict::Full => Err(Refusal::Full),
    }
}

/// What a live thread's fitting C or A asks for.
#[derive(Clone, Debug)]
pub struct Asked {
    pub operation: u16,
    /// A C of a thread that has no room for another open call.
    pub is_full: bool,
    /// All of the segment's locks, by rising number.
    pub locks: Vec<Lock>,
}

impl Asked {
    /// As the history tells it. `None` for other calls.
    pub fn of(history: &History, record: &Record) -> Option<Asked> {
        let operation = history.operation(record)?;
        let open_calls = &history.thread(record.a)?.open_calls;
        let keys = history.key_set(record.a)?;
        let standing = history.standing();
        let locks = standing.filter(|(_, lock)| lock.segment == record.b);
        let locks = locks.map(|(number, lock)| {
            let sum = lock.formula.sum_of_products();
            let sum = sum.expect("an accepted text fits");
            let products = sum.iter();
            let products: Vec<(bool, &[Literal])> = products
                .map(|product| (product.is_opened_by(&keys), product.literals()))
                .collect();
            Lock::new(number, lock.operations, &products, |literal| literal.barred)
        });
        Some(Asked {
            operation,
            is_full: operation == EXECUTE && open_calls.len() == MAX_FRAMES,
            locks: locks.collect(),
        })
    }

    /// The locks that stand for the operation and open: deny locks, or grant locks.
    pub fn opening(&self, denies: bool) -> Vec<&Lock> {
        let locks = self.locks.iter();
        locks
            .filter(|lock| lock.operations & self.operation != 0)
            .filter(|lock| lock.denies() == denies && lock.opens())
            .collect()
    }

    /// What a guard with this fault answers, or one with none.
    pub fn answer(&self, fault: Option<Fault>) -> Answer {
        let grant = self.opening(false);
        let granting = self.granting(fault, &grant);
        let mut deny = self.opening(true);
        match (fault, grant.first(), granting) {
            (Some(Fault::Outvoted), _, Some(tightest)) => {
                deny.retain(|lock| lock.longest() >= tightest.longest());
            }
            (Some(Fault::DenyFirst), Some(first), _) => {
                deny.retain(|lock| lock.number < first.number);
            }
            (Some(Fault::DenyBeforeTheTightest), _, Some(tightest)) => {
                deny.retain(|lock| lock.number < tightest.number);
            }
            _ => {}
        }
        let denying = match fault {
            Some(Fault::LongestDenies) => tightest(&deny, Lock::longest),
            Some(Fault::HighestDenies) => deny.last().copied(),
            _ => deny.first().copied(),
        };
        match (denying, granting) {
            (Some(lock), _) => Err(Refusal::Denied(lock.number)),
            (None, None) => Err(Refusal::NotGranted),
            (None, Some(_)) if self.is_full => Err(Refusal::Full),
            (None, Some(lock)) => Ok(lock.number),
        }
    }

    /// Of these grant locks that open the one that answers.
    fn granting<'a>(&'a self, fault: Option<Fault>, grant: &[&'a Lock]) -> Option<&'a Lock> {
        let lowest = grant.first().copied();
        let by_operation = |is_new: bool| match is_new {
            true => tightest(grant, Lock::longest),
            false => lowest,
        };
        let Some(fault) = fault else {
            return tightest(grant, Lock::longest);
        };
        match fault {
            Fault::Lowest => lowest,
            Fault::Highest => grant.last().copied(),
            Fault::HighestOfEqual => grant.iter().copied().max_by_key(|lock| lock.longest()),
            Fault::Loosest => tightest(grant, |lock| Reverse(lock.longest())),
            Fault::CallsAlone => by_operation(self.operation == EXECUTE),
            Fault::AccessesAlone => by_operation(self.operation != EXECUTE),
            Fault::LowestReads => by_operation(self.operation != READ),
            Fault::LowestWrites => by_operation(self.operation != WRITE),
            Fault::EveryOperation => {
                let locks = self.locks.iter();
                let all: Vec<&Lock> = locks
                    .filter(|lock| !lock.denies() && lock.opens())
                    .collect();
                lowest.and_then(|_| tightest(&all, Lock::longest))
            }
            _ => tightest(grant, |lock| measured(fault, lock)),
        }
    }
}

/// The lock with the highest measure, and of equal ones the lowest.
fn tightest<'a, M: Ord>(locks: &[&'a Lock], measure: impl Fn(&Lock) -> M) -> Option<&'a Lock> {
    let locks = locks.iter().copied();
    locks.max_by_key(|lock| (measure(lock), Reverse(lock.number)))
}

/// The measure of a lock that opens, by faults that measure wrongly.
fn measured(fault: Fault, lock: &Lock) -> Option<usize> {
    let all = || lock.products.iter();
    let opening = || all().filter(|product| product.opens);
    let mut lengths = lock.lengths();
    match fault {
        Fault::ClosedCount => all().map(Product::length).max(),
        Fault::EveryKey => Some(all().map(Product::length).sum()),
        Fault::PlainAlone => opening().map(|product| product.plain).max(),
        Fault::BarredAlone => opening().map(|product| product.barred).max(),
        Fault::Sum => Some(lengths.sum()),
        Fault::Products => Some(lengths.count()),
        Fault::FirstProduct => lengths.next(),
        Fault::LastProduct => lengths.next_back(),
        Fault::ShortestProduct => lengths.min(),
        Fault::Simplified => {
            let kept = opening().filter(|product| !product.is_absorbed);
            kept.map(Product::length).max()
        }
        Fault::Capped => lock.longest().map(|longest| longest.min(5)),
        _ => lock.longest(),
    }
}
