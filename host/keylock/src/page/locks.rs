//! Locks on the page: whether they open, and which keys hold them shut.

use super::html::{formula, said};
use super::pieces::Pieces;
use crate::steps::{Judgement, Literal, Lock, Product, Tried};
use crate::{shown, words};

/// The locks that a call was tried on: the one that decided, then the others.
pub fn tried_on(judgement: &Judgement, pieces: &mut Pieces) -> String {
    let operation = words::operations(judgement.operation);
    let segment = said(&judgement.segment_said);
    let decides = |lock: &&Tried| judgement.decided == Some(lock.lock.number);
    let (deciding, others): (Vec<_>, Vec<_>) = judgement.locks.iter().partition(decides);
    let part = match judgement.decided {
        Some(_) => Part::Stands,
        None => Part::Lacks,
    };
    let deciding = deciding.into_iter().map(|lock| (lock, Part::Decides));
    let others = others.into_iter().map(|lock| (lock, part));
    let locks = deciding.chain(others);
    let locks: String = locks
        .map(|(lock, part)| tried(lock, part, judgement.rank(lock), pieces))
        .collect();
    let none = match judgement.locks.is_empty() {
        true => "<p class=\"lock\">There is none.</p>\n",
        false => "",
    };
    let before = before(judgement, pieces);
    pieces.share(format!(
        "<h3>Locks for {operation} on {segment}</h3>\n{locks}{none}{before}"
    ))
}

/// The keys that a call was tried with, since it hands over others.
fn before(judgement: &Judgement, pieces: &mut Pieces) -> String {
    if judgement.operation != 1 || judgement.locks.is_empty() {
        return String::new();
    }
    let keys = judgement.keys.iter();
    let keys: Vec<String> = keys.map(|key| pieces.share(key.to_string())).collect();
    let keys = keys.join(" ");
    format!("<p class=\"after\">Tried with the keys before the call: <code>{keys}</code></p>\n")
}

/// What a lock has to do with the answer.
#[derive(Clone, Copy, PartialEq)]
enum Part {
    Decides,
    /// Another lock decides.
    Stands,
    /// No lock does.
    Lacks,
}

/// With its rank among several grant locks that open.
fn tried(tried: &Tried, part: Part, rank: Option<String>, pieces: &mut Pieces) -> String {
    let number = tried.lock.number;
    let decides = part == Part::Decides;
    let verb = words::verb(tried.lock.denies());
    let state = match (decides, tried.opens()) {
        (true, _) => format!("<b>Lock {number} opens and {verb}</b>"),
        (false, true) => format!("<b>Lock {number} opens.</b> It {verb}"),
        (false, false) => format!("<b>Lock {number} stays shut.</b> It {verb}"),
    };
    let mut class = "lock".to_string();
    for (name, has) in [
        ("opens", tried.opens()),
        ("decides", decides),
        ("minor", part == Part::Stands),
        ("deny", tried.lock.denies()),
    ] {
        if has {
            class += &format!(" {name}");
        }
    }
    let longest = tried.longest();
    let products = tried.products.iter().enumerate();
    let products: String = products
        .map(|(place, tried)| product(tried, decides && longest == Some(place), pieces))
        .collect();
    let line = lock_line(&tried.lock, &state);
    let rank = rank.map(|rank| pieces.share(format!("<p class=\"rank\">{rank}</p>")));
    let rank = rank.unwrap_or_default();
    pieces.share(format!(
        "<div class=\"{class}\">{line}{rank}<ul>{products}</ul></div>\n"
    ))
}

/// `write if S0&S1`, after what is said of the lock.
fn lock_line(lock: &Lock, said: &str) -> String {
    let operations = words::operations(lock.operations & 7);
    let text = formula(&shown::bytes(&lock.text));
    format!("<p>{said} {operations} if <code>{text}</code></p>")
}

fn product(product: &Product, decides: bool, pieces: &mut Pieces) -> String {
    let literals = product.literals.iter();
    let literals: Vec<String> = literals.map(|tried| literal(tried, pieces)).collect();
    let against = product.against().into_iter();
    let mut reasons: String = against
        .map(|reason| pieces.share(format!("<p class=\"against\">{}</p>", said(&reason))))
        .collect();
    if decides && !product.sources().is_empty() {
        reasons = format!("<p class=\"from\">{}</p>", said(&product.sources()));
    }
    pieces.share(format!(
        "<li class=\"product\"><div class=\"keys\">{}</div>{reasons}</li>",
        literals.join("<i>and</i>")
    ))
}

fn literal(literal: &Literal, pieces: &mut Pieces) -> String {
    let class = if literal.agrees() { "lit" } else { "lit off" };
    let (key, word) = (literal.literal, literal.in_short());
    pieces.share(format!(
        "<span class=\"{class}\"><code>{key}</code>{word}</span>"
    ))
}

/// A lock that no call is tried on now.
pub fn standing(lock: &Lock, pieces: &mut Pieces) -> String {
    let verb = words::verb(lock.denies());
    let said = format!("<b>Lock {}</b> {verb}", lock.number);
    let line = lock_line(lock, &said);
    pieces.share(format!("<div class=\"lock\">{line}</div>\n"))
}
