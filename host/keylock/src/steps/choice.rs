//! Which grant lock answers where several open: the tightest one, whose longest
//! product that opens has the most keys, and of equally tight ones the lowest.

use super::judgement::{Judgement, Tried, Verbs};
use crate::figures::spelt;
use crate::words::{self, capital};
use std::cmp::Reverse;

/// So many equally tight locks are named; more are counted.
const MOST_NAMED: usize = 4;

/// The grant lock that answers, if no deny lock opens.
pub fn tightest(judgement: &Judgement) -> Option<&Tried> {
    ranked(judgement).first().copied()
}

/// The grant locks that open, the tightest first, equally tight ones by rising number.
fn ranked(judgement: &Judgement) -> Vec<&Tried> {
    let open = judgement.grants().filter(|tried| tried.opens());
    let mut open: Vec<&Tried> = open.collect();
    open.sort_by_key(|tried| Reverse(tried.tightness()));
    open
}

/// The same where one of several answers, else none.
fn rivals(judgement: &Judgement) -> Vec<&Tried> {
    let mut grants = judgement.grants();
    let granted = grants.any(|tried| judgement.decided == Some(tried.lock.number));
    let open = ranked(judgement);
    match granted && open.len() > 1 {
        true => open,
        false => Vec::new(),
    }
}

/// Why one of several answers: `Lock 3 opens with two keys, lock 1 with one: the tighter
/// one answers.`
pub fn why(judgement: &Judgement, verbs: &Verbs) -> Option<String> {
    let rivals = rivals(judgement);
    let mut groups = rivals.chunk_by(|one, next| one.tightness() == next.tightness());
    let tightest = groups.next()?;
    let verb = match tightest.len() {
        1 => verbs.opens,
        _ => verbs.open,
    };
    let (locks, keys) = (capital(&said(tightest)), tightest[0].keys_in_words());
    let opening = format!("{locks} {verb} with {keys}{}", each(tightest));
    let looser = groups.map(|group| {
        let keys = spelt(group[0].tightness());
        format!(", {} with {keys}{}", said(group), each(group))
    });
    let looser: String = looser.collect();
    let one = match (tightest.len(), rivals.len() - tightest.len()) {
        (1, 1) => "the tighter one",
        (1, _) => "the tightest one",
        (2, 0) => "the lower one",
        (_, 0) => "the lowest one",
        (2, _) => "of the tightest the lower one",
        (_, _) => "of the tightest the lowest one",
    };
    Some(format!("{opening}{looser}: {one} answers."))
}

/// Of several grant locks that open, why this one answers or doesn't, in a sentence
/// without its full stop: `With one key it is looser`. It names no other lock, so that
/// a page with many steps says it of a lock once.
pub fn rank(judgement: &Judgement, tried: &Tried) -> Option<String> {
    let rivals = rivals(judgement);
    let (first, others) = rivals.split_first()?;
    let ties = others
        .iter()
        .filter(|other| other.tightness() == first.tightness());
    let place = rivals
        .iter()
        .position(|rival| rival.lock.number == tried.lock.number)?;
    let rank = match (place, ties.count()) {
        (0, 0) => "the tightest: it answers",
        (0, _) => "one of the tightest, and the lowest of them: it answers",
        (place, ties) if place <= ties => "as tight, but its number is higher",
        _ => "looser",
    };
    Some(format!("With {} it is {rank}", tried.keys_in_words()))
}

/// `lock 3`, `locks 1 and 3`, `6 locks`
fn said(locks: &[&Tried]) -> String {
    let numbers = locks.iter().map(|tried| tried.lock.number.to_string());
    let numbers: Vec<String> = numbers.collect();
    match locks.len() {
        1 => format!("lock {}", numbers[0]),
        ..=MOST_NAMED => format!("locks {}", words::listed(&numbers, "and")),
        count => format!("{count} locks"),
    }
}

fn each(locks: &[&Tried]) -> &'static str {
    match locks.len() {
        1 => "",
        _ => " each",
    }
}
