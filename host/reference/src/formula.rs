//! Formula texts (document 01: lock texts): their grammar, what a formula
//! means, and its sum of products.
//!
//! The text becomes a tree, and everything else is asked of the tree. So the
//! refusals come in document 01's order by themselves: reading the whole text
//! finds [`Refusal::Malformed`], making the products of every node finds
//! [`Refusal::TooWide`], and the finished sum is or isn't empty.

use crate::limits::{MAX_DEPTH, MAX_LITERALS, MAX_PRODUCTS, MAX_TEXT_BYTES};
use crate::{Issued, Key, Kind, Refusal};
use std::collections::BTreeSet;

/// A key that must be in the key set, or, barred, one that must not (document
/// 01: signed key). Literals are ordered by their keys, so the two literals of
/// a key stand side by side.
#[derive(Clone, Copy, Debug, PartialEq, Eq, PartialOrd, Ord)]
pub struct Literal {
    pub key: Key,
    pub barred: bool,
}

/// A set of literals, in order and without repeats.
#[derive(Clone, Debug, PartialEq, Eq)]
pub struct Product {
    literals: Vec<Literal>,
}

impl Product {
    pub fn literals(&self) -> &[Literal] {
        &self.literals
    }

    /// Whether every plain key is in the key set and no barred one is.
    pub fn is_opened_by(&self, keys: &BTreeSet<Key>) -> bool {
        self.literals
            .iter()
            .all(|literal| keys.contains(&literal.key) != literal.barred)
    }

    fn joined_with(&self, other: &Product) -> Product {
        let mut literals = [self.literals(), other.literals()].concat();
        literals.sort_unstable();
        literals.dedup();
        Product { literals }
    }

    /// Whether a key is in it both plain and barred.
    fn is_contradiction(&self) -> bool {
        self.literals
            .windows(2)
            .any(|pair| pair[0].key == pair[1].key)
    }
}

/// A formula as a tree. A bracket is no node of its own: its list is that of
/// what it holds.
#[derive(Debug, PartialEq, Eq)]
pub enum Formula {
    Key(Key),
    Not(Box<Formula>),
    And(Box<Formula>, Box<Formula>),
    Or(Box<Formula>, Box<Formula>),
}

impl Formula {
    /// Whether the formula holds for a key set.
    pub fn holds(&self, keys: &BTreeSet<Key>) -> bool {
        match self {
            Formula::Key(key) => keys.contains(key),
            Formula::Not(inner) => !inner.holds(keys),
            Formula::And(left, right) => left.holds(keys) && right.holds(keys),
            Formula::Or(left, right) => left.holds(keys) || right.holds(keys),
        }
    }

    /// The keys that the formula names.
    pub fn keys(&self) -> BTreeSet<Key> {
        match self {
            Formula::Key(key) => BTreeSet::from([*key]),
            Formula::Not(inner) => inner.keys(),
            Formula::And(left, right) | Formula::Or(left, right) => {
                let mut keys = left.keys();
                keys.append(&mut right.keys());
                keys
            }
        }
    }

    /// The formula's sum of products; an empty one can't hold. The only
    /// refusal is [`Refusal::TooWide`].
    pub fn sum_of_products(&self) -> Result<Vec<Product>, Refusal> {
        self.sum_under(false)
    }

    /// The node's list. `negated` says that an odd number of NOTs stands above
    /// the node.
    fn sum_under(&self, negated: bool) -> Result<Vec<Product>, Refusal> {
        match (self, negated) {
            (Formula::Key(key), barred) => {
                let literals = vec![Literal { key: *key, barred }];
                Ok(vec![Product { literals }])
            }
            (Formula::Not(inner), _) => inner.sum_under(!negated),
            (Formula::Or(left, right), false) | (Formula::And(left, right), true) => {
                let left = left.sum_under(negated)?;
                let right = right.sum_under(negated)?;
                fitting(left.into_iter().chain(right))
            }
            (Formula::And(left, right), false) | (Formula::Or(left, right), true) => {
                let left = left.sum_under(negated)?;
                let right = right.sum_under(negated)?;
                fitting(
                    left.iter()
                        .flat_map(|l| right.iter().map(|r| l.joined_with(r))),
                )
            }
        }
    }
}

/// Takes contradictions and repeats out of a node's list, and judges what is
/// left.
fn fitting(products: impl Iterator<Item = Product>) -> Result<Vec<Product>, Refusal> {
    let mut kept: Vec<Product> = Vec::new();
    for product in products {
        if !product.is_contradiction() && !kept.contains(&product) {
            kept.push(product);
        }
    }
    if kept.len() > MAX_PRODUCTS || kept.iter().any(|p| p.literals.len() > MAX_LITERALS) {
        return Err(Refusal::TooWide);
    }
    Ok(kept)
}

/// The sum of products of a text: 1 to [`MAX_PRODUCTS`] products.
pub fn compile(text: &[u8], issued: &Issued) -> Result<Vec<Product>, Refusal> {
    let products = parse(text, issued)?.sum_of_products()?;
    if products.is_empty() {
        return Err(Refusal::Unsatisfiable);
    }
    Ok(products)
}

/// Reads a whole text by operator precedence. The only refusal is
/// [`Refusal::Malformed`].
pub fn parse(text: &[u8], issued: &Issued) -> Result<Formula, Refusal> {
    if text.len() > MAX_TEXT_BYTES {
        return Err(Refusal::Malformed);
    }
    let mut reader = Reader::new(issued);
    let mut rest = text;
    loop {
        rest = reader.operand(rest)?;
        rest = reader.closing_brackets(rest)?;
        rest = match rest {
            [] => return reader.whole(),
            [b'&', after @ ..] => reader.operator(Waiting::And, after),
            [b'|', after @ ..] => reader.operator(Waiting::Or, after),
            _ => return Err(Refusal::Malformed),
        };
    }
}

/// What has been read and waits for its right side, or for its closing
/// bracket. From the loosest to the tightest.
#[derive(Clone, Copy, PartialEq, Eq, PartialOrd, Ord)]
enum Waiting {
    Bracket,
    Or,
    And,
    Not,
}

/// A text that has been read up to some place. Each function reads on from there
/// and answers what is left.
struct Reader<'a> {
    issued: &'a Issued,
    finished: Vec<Formula>,
    waiting: Vec<Waiting>,
    /// The brackets among what waits.
    depth: usize,
}

impl<'a> Reader<'a> {
    fn new(issued: &'a Issued) -> Reader<'a> {
        Reader {
            issued,
            finished: Vec::new(),
            waiting: Vec::new(),
            depth: 0,
        }
    }

    /// A key, after any number of NOTs and opening brackets.
    fn operand<'t>(&mut self, mut rest: &'t [u8]) -> Result<&'t [u8], Refusal> {
        while let Some((&byte, after)) = rest.split_first() {
            rest = after;
            match byte {
                b'!' => self.waiting.push(Waiting::Not),
                b'(' if self.depth < MAX_DEPTH => {
                    self.depth += 1;
                    self.waiting.push(Waiting::Bracket);
                }
                letter => return self.key(letter, rest),
            }
        }
        Err(Refusal::Malformed)
    }

    /// The number of a key with this letter.
    fn key<'t>(&mut self, letter: u8, rest: &'t [u8]) -> Result<&'t [u8], Refusal> {
        let digits = rest.iter().take_while(|b| b.is_ascii_digit()).count();
        let (number, after) = rest.split_at(digits);
        let key = key(letter, number).filter(|key| self.issued.contains(*key));
        let key = key.ok_or(Refusal::Malformed)?;
        self.finished.push(Formula::Key(key));
        Ok(after)
    }

    fn closing_brackets<'t>(&mut self, mut rest: &'t [u8]) -> Result<&'t [u8], Refusal> {
        while let Some(after) = rest.strip_prefix(b")") {
            self.settle(Waiting::Or);
            if self.waiting.pop() != Some(Waiting::Bracket) {
                return Err(Refusal::Malformed);
            }
            self.depth -= 1;
            rest = after;
        }
        Ok(rest)
    }

    fn operator<'t>(&mut self, operator: Waiting, rest: &'t [u8]) -> &'t [u8] {
        self.settle(operator);
        self.waiting.push(operator);
        rest
    }

    /// The formula of a text that is read to its end. No bracket may be open.
    fn whole(mut self) -> Result<Formula, Refusal> {
        self.settle(Waiting::Or);
        match self.waiting.is_empty() {
            true => Ok(self.take()),
            false => Err(Refusal::Malformed),
        }
    }

    /// Builds the nodes of all that waits on top and binds at least as tight as
    /// `bound`. What binds just as tight is built first, so AND and OR group to
    /// the left.
    fn settle(&mut self, bound: Waiting) {
        while let Some(operator) = self.waiting.pop_if(|operator| *operator >= bound) {
            let right = Box::new(self.take());
            let node = match operator {
                Waiting::Not => Formula::Not(right),
                Waiting::And => Formula::And(Box::new(self.take()), right),
                Waiting::Or => Formula::Or(Box::new(self.take()), right),
                Waiting::Bracket => unreachable!("a bracket is looser than every bound"),
            };
            self.finished.push(node);
        }
    }

    fn take(&mut self) -> Formula {
        self.finished
            .pop()
            .expect("every operator has its operands")
    }
}

/// The key with this letter and these digits, if they spell one.
fn key(letter: u8, digits: &[u8]) -> Option<Key> {
    let kind = Kind::ALL.into_iter().find(|kind| kind.letter() == letter)?;
    if digits.len() > 1 && digits[0] == b'0' {
        return None;
    }
    // Refuses an empty number, and one that doesn't fit 16 bits, however long.
    let number = std::str::from_utf8(digits).ok()?.parse().ok()?;
    Some(Key { kind, number })
}
