//! The tightest lock as the history tells it (document 02, P6), from the formulas and
//! a key set: which products open is read off the tree, and none that doesn't is made.

use super::Lock;
use crate::Key;
use crate::formula::Formula;
use std::collections::BTreeSet;

/// A lock's number, and how many signed keys its longest product has that opens.
type Measured = (u16, Option<usize>);

/// Of grant locks that open with these keys, the one that gives way to no other.
pub(super) fn tightest(opening: &[(u16, &Lock)], keys: &BTreeSet<Key>) -> Option<u16> {
    let locks = opening.iter();
    let locks = locks.map(|(number, lock)| (*number, longest(&lock.formula, keys)));
    let locks: Vec<Measured> = locks.collect();
    let gives_way = |lock: &&Measured| locks.iter().any(|other| comes_before(*other, **lock));
    let answer = locks.iter().find(|lock| !gives_way(lock));
    answer.map(|(number, _)| *number)
}

fn comes_before((number, length): Measured, (other, shorter): Measured) -> bool {
    length > shorter || length == shorter && number < other
}

/// How many signed keys the longest product has that opens.
fn longest(formula: &Formula, keys: &BTreeSet<Key>) -> Option<usize> {
    let opening = opening_products(formula, keys, false);
    opening.iter().map(BTreeSet::len).max()
}

/// The node's products that open, each by the keys that it names: in a product that
/// opens a key is plain if it is in the key set, and else barred. So none of them has
/// a key both ways, and joining two of them gives one that opens. `negated` says that
/// an odd number of NOTs stands above the node.
fn opening_products(
    node: &Formula,
    keys: &BTreeSet<Key>,
    negated: bool,
) -> BTreeSet<BTreeSet<Key>> {
    let of = |node: &Formula| opening_products(node, keys, negated);
    match (node, negated) {
        (Formula::Key(key), barred) if keys.contains(key) == barred => BTreeSet::new(),
        (Formula::Key(key), _) => BTreeSet::from([BTreeSet::from([*key])]),
        (Formula::Not(inner), _) => opening_products(inner, keys, !negated),
        (Formula::Or(left, right), false) | (Formula::And(left, right), true) => {
            &of(left) | &of(right)
        }
        (Formula::And(left, right), false) | (Formula::Or(left, right), true) => {
            let (left, right) = (of(left), of(right));
            let pairs = left.iter().flat_map(|l| right.iter().map(move |r| l | r));
            pairs.collect()
        }
    }
}
