//! What a thread's keys do to a product: which are held and by whom, and which
//! hold it shut.

use super::lack::{self, Lack};
use super::state::{State, for_reference};
use crate::words;
use rotundaaloe::formula::{self, Key};
use rotundaaloe::{Guard, Segment, Thread};

#[derive(Clone, Debug)]
pub struct Product {
    pub literals: Vec<Literal>,
    /// As the proved function says.
    pub opens: bool,
}

/// A literal, and who brought its key if it is held.
#[derive(Clone, Debug)]
pub struct Literal {
    pub literal: formula::Literal,
    /// The key with its name, if it has one: `D0, the auditor's,`.
    said: String,
    /// The newest first. Empty if the key isn't held.
    pub held_by: Vec<Holder>,
    /// The place of the newest open call that brought it, 0 for the newest of
    /// all, as the guard finds it.
    pub place: Option<usize>,
    /// The segment of that call, by its name, or the one that would bring it.
    pub from: Option<String>,
    /// Why the key isn't held, if it isn't.
    lack: Lack,
}

/// Where a held key comes from.
#[derive(Clone, Copy, Debug, PartialEq, Eq)]
pub enum Holder {
    /// It is the thread's user's key, or its own.
    Identity,
    /// An open call of this segment handed it over.
    Call(u16),
}

impl Product {
    /// The literals that hold it shut.
    pub fn disagreeing(&self) -> impl Iterator<Item = &Literal> {
        self.literals.iter().filter(|literal| !literal.agrees())
    }

    /// Why it stays shut, a sentence each without its full stop. Keys that no open
    /// call of the thread ever handed over share one.
    pub fn against(&self) -> Vec<String> {
        let (lacking, others): (Vec<_>, Vec<_>) =
            self.disagreeing().partition(|literal| literal.is_lacking());
        let others = others.into_iter().map(Literal::in_words);
        let lacking = match lacking.as_slice() {
            [] => None,
            [literal] => Some(literal.in_words()),
            literals => {
                let keys: Vec<String> = literals.iter().map(|literal| literal.of()).collect();
                let keys = words::listed(&keys, "and");
                Some(format!(
                    "{keys} are missing: no open call of this thread hands them over"
                ))
            }
        };
        lacking.into_iter().chain(others).collect()
    }

    /// The same in short: `S0 is missing`.
    pub fn shortfall(&self) -> String {
        let keys = |barred: bool| -> Vec<String> {
            let against = self.disagreeing();
            let against = against.filter(|literal| literal.is_barred() == barred);
            against
                .map(|literal| literal.literal.key().to_string())
                .collect()
        };
        let said = |keys: Vec<String>, word: &str| match keys.len() {
            0 => None,
            1 => Some(format!("{} is {word}", keys[0])),
            _ => Some(format!("{} are {word}", words::listed(&keys, "and"))),
        };
        let missing = said(keys(false), "missing");
        let barred = said(keys(true), "held but barred");
        let parts: Vec<String> = missing.into_iter().chain(barred).collect();
        parts.join(", ")
    }

    /// Where its held keys come from, and where its barred ones went that were
    /// taken: `U0 always held, S0 from segment 0, D0 taken from segment 0 in step 9`.
    pub fn sources(&self) -> String {
        let source = |literal: &Literal| {
            let key = literal.literal.key();
            match (literal.held_by.first(), &literal.from) {
                (Some(Holder::Call(_)), Some(segment)) => Some(format!("{key} from {segment}")),
                (Some(_), _) => Some(format!("{key} always held")),
                (None, _) => Some(format!("{key} {}", literal.taken_from_barred()?)),
            }
        };
        let sources: Vec<String> = self.literals.iter().filter_map(source).collect();
        sources.join(", ")
    }

    /// A sentence for each barred key that the thread would hold, had it not been
    /// taken: `D0 was taken from segment 0 in step 9.`
    pub fn withdrawn(&self) -> Vec<String> {
        let literals = self.literals.iter();
        let withdrawn = literals.filter_map(|literal| {
            let taken = literal.taken_from_barred()?;
            Some(format!("{} was {taken}.", literal.literal.key()))
        });
        withdrawn.collect()
    }
}

impl Literal {
    pub fn is_held(&self) -> bool {
        !self.held_by.is_empty()
    }

    pub fn is_barred(&self) -> bool {
        matches!(self.literal, formula::Literal::Barred(_))
    }

    /// Whether it lets its product open.
    pub fn agrees(&self) -> bool {
        self.is_held() != self.is_barred()
    }

    /// Whether it waits for a key that an open call would have to bring, and none
    /// ever did.
    fn is_lacking(&self) -> bool {
        let brought = matches!(self.literal.key(), Key::Segment(_) | Key::Defined(_));
        brought && !self.is_barred() && !self.is_held() && self.lack.taken.is_none()
    }

    /// Where its key was taken from, if it is barred.
    fn taken_from_barred(&self) -> Option<&str> {
        let taken = self.lack.taken.as_deref();
        taken.filter(|_| self.is_barred())
    }

    /// In a word or two: `held`, `missing`.
    pub fn in_short(&self) -> &'static str {
        match (self.is_barred(), self.is_held()) {
            (false, true) => "held",
            (false, false) => "missing",
            (true, false) => "not held",
            (true, true) => "held but barred",
        }
    }

    /// In a sentence without its full stop.
    pub fn in_words(&self) -> String {
        let said = &self.said;
        match (self.is_barred(), self.is_held()) {
            (false, true) => format!("{said} is held: {}", self.source()),
            (true, true) => format!("{said} is barred, but held: {}", self.source()),
            (false, false) => format!("{said} is missing: {}", self.lack.why),
            (true, false) => format!("{said} is barred, and isn't held"),
        }
    }

    /// The key with the segment that would bring it: `S0 of segment 0`.
    fn of(&self) -> String {
        let key = self.literal.key();
        match &self.from {
            Some(segment) => format!("{key} of {segment}"),
            None => key.to_string(),
        }
    }

    fn source(&self) -> String {
        match (self.held_by.len(), &self.from) {
            (1, Some(segment)) => format!("this thread's open call of {segment} handed it over"),
            (count, Some(segment)) => {
                format!("{count} open calls of this thread handed it over, the newest of {segment}")
            }
            (_, None) => "it is an identity key of the thread".to_string(),
        }
    }
}

/// What a product asks of a thread: `holds S0 and S1 but not D0`. The two verbs
/// give the tense.
pub fn wanted(product: &formula::Product, holds: &str, lacks: &str) -> String {
    let (mut plain, mut barred) = (Vec::new(), Vec::new());
    for literal in product.literals() {
        match literal {
            formula::Literal::Plain(key) => plain.push(key.to_string()),
            formula::Literal::Barred(key) => barred.push(key.to_string()),
        }
    }
    match (plain.is_empty(), barred.is_empty()) {
        (_, true) => format!("{holds} {}", words::listed(&plain, "and")),
        (true, _) => format!("{lacks} {}", words::listed(&barred, "or")),
        _ => {
            let (plain, barred) = (words::listed(&plain, "and"), words::listed(&barred, "or"));
            format!("{holds} {plain} but not {barred}")
        }
    }
}

/// A thread whose keys are tried, with what stands before its call: what the
/// history tells, and the guard, which isn't asked the call yet.
#[derive(Clone, Copy)]
pub struct Tester<'a> {
    pub state: &'a State,
    pub guard: &'a Guard,
    pub thread: Thread,
}

impl Tester<'_> {
    /// A product, tried with the thread's key set.
    pub fn tried(self, keys: &[Key], product: &formula::Product) -> Product {
        let literals = product.literals().iter();
        Product {
            literals: literals.map(|tried| self.literal(*tried)).collect(),
            opens: product.opens(keys),
        }
    }

    fn literal(self, literal: formula::Literal) -> Literal {
        let Tester { state, thread, .. } = self;
        let key = literal.key();
        let place = self.place(key);
        let held_by = self.holders(key, place);
        let lack = match held_by.is_empty() {
            true => lack::of(state, thread, key),
            false => Lack::default(),
        };
        let from = match held_by.first() {
            Some(Holder::Identity) => None,
            Some(Holder::Call(segment)) => Some(state.said(Segment(*segment))),
            None => lack.from.clone(),
        };
        Literal {
            literal,
            said: said(state, key),
            held_by,
            place,
            from,
            lack,
        }
    }

    /// The place of the newest open call that handed the key over. A thread that
    /// the guard didn't take for live would be told as a disagreement.
    fn place(self, key: Key) -> Option<usize> {
        self.guard.find_key(self.thread, key).unwrap_or(None)
    }

    /// The open call at that place, and the older ones that handed the key over.
    fn holders(self, key: Key, place: Option<usize>) -> Vec<Holder> {
        if self.is_identity(key) {
            return vec![Holder::Identity];
        }
        let Some(newest) = place else {
            return Vec::new();
        };
        let key = for_reference(key);
        let newest_first = self.state.open_calls(self.thread).iter().rev();
        newest_first
            .enumerate()
            .skip(newest)
            .filter(|(place, call)| *place == newest || call.list.contains(&key))
            .map(|(_, call)| Holder::Call(call.segment))
            .collect()
    }

    /// Whether it is the thread's user's key, or its own.
    fn is_identity(self, key: Key) -> bool {
        match key {
            Key::User(user) => self.state.kept.user_of(self.thread) == Some(user),
            Key::Thread(thread) => thread == self.thread,
            Key::Segment(_) | Key::Defined(_) => false,
        }
    }
}

/// A defined key's name tells what it is for; the other keys' things are named
/// where they come from.
fn said(state: &State, key: Key) -> String {
    let name = match key {
        Key::Defined(defined) => state.kept.names.get(defined),
        Key::User(_) | Key::Thread(_) | Key::Segment(_) => None,
    };
    match name {
        Some(name) => format!("{key}, {name},"),
        None => key.to_string(),
    }
}
