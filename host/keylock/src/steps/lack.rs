//! Why a thread doesn't hold a key, and where it would get it.

use super::state::{State, for_reference};
use crate::words;
use rotundaaloe::formula::Key;
use rotundaaloe::{Segment, Thread};
use std::collections::{BTreeMap, BTreeSet};

/// Why a key isn't held.
#[derive(Clone, Debug, Default)]
pub struct Lack {
    /// The segment that hands it over to who calls it now, if there is one.
    pub from: Option<String>,
    /// The end of a sentence: `S0 is missing: ..`.
    pub why: String,
    /// Where it was taken from, if open calls of the thread handed it over until
    /// then: `taken from segment 0 in step 12`.
    pub taken: Option<String>,
}

/// Of a key that the thread doesn't hold.
pub fn of(state: &State, thread: Thread, key: Key) -> Lack {
    let why = match key {
        Key::User(_) => {
            let user = state.kept.user_of(thread).map(|user| state.said(user));
            let user = user.unwrap_or_default();
            format!("{} runs for {user}", state.said(thread))
        }
        Key::Thread(_) => format!("this is {}", state.said(thread)),
        Key::Segment(segment) if state.is_sheet(segment) => {
            let segment = state.said(segment);
            format!("{segment} is a sheet, and no sheet is called")
        }
        Key::Segment(_) | Key::Defined(_) => return not_handed_over(state, thread, key),
    };
    Lack {
        why,
        ..Lack::default()
    }
}

fn not_handed_over(state: &State, thread: Thread, key: Key) -> Lack {
    let givers = givers(state, key);
    let losses: Vec<(Segment, usize)> = state.taken(thread, key).collect();
    let taken = (!losses.is_empty()).then(|| taken(state, &losses));
    let why = match &taken {
        Some(taken) => format!("it was {taken}, so {}", no_more(state, &losses, &givers)),
        None => never_there(state, thread, &givers),
    };
    Lack {
        from: givers.first().map(|giver| state.said(*giver)),
        why,
        taken,
    }
}

/// Of a key that no open call of the thread ever handed over.
fn never_there(state: &State, thread: Thread, givers: &[Segment]) -> String {
    let said: Vec<String> = givers.iter().map(|giver| state.said(*giver)).collect();
    let open = |giver: &&Segment| {
        let mut calls = state.open_calls(thread).iter();
        calls.any(|call| call.segment == giver.0)
    };
    let early = givers.iter().find(open).map(|giver| state.said(*giver));
    match (said.as_slice(), early) {
        ([], _) => "no code segment hands it over".to_string(),
        (_, Some(early)) => format!(
            "{early} hands it over, but this thread's open call of it was made before it did"
        ),
        ([one], None) => format!("{one} hands it over, and this thread has no open call of it"),
        ([one, other], None) => {
            format!("{one} and {other} hand it over, and this thread has no open call of them")
        }
        ([one, others @ ..], None) => {
            let givers = format!("{one} and {} others", others.len());
            format!("{givers} hand it over, and this thread has no open call of them")
        }
    }
}

/// `taken from segment 0 in step 12 and from segment 1 in steps 13 and 17`
fn taken(state: &State, losses: &[(Segment, usize)]) -> String {
    let mut steps: BTreeMap<Segment, BTreeSet<usize>> = BTreeMap::new();
    for (segment, step) in losses {
        steps.entry(*segment).or_default().insert(*step);
    }
    let from = steps.into_iter().map(|(segment, steps)| {
        let steps: Vec<String> = steps.iter().map(usize::to_string).collect();
        let noun = if steps.len() == 1 { "step" } else { "steps" };
        let steps = words::listed(&steps, "and");
        format!("from {} in {noun} {steps}", state.said(segment))
    });
    let from: Vec<String> = from.collect();
    format!("taken {}", words::listed(&from, "and"))
}

/// What became of the open calls that lost a key, and which call would bring it.
fn no_more(state: &State, losses: &[(Segment, usize)], givers: &[Segment]) -> String {
    let segments: BTreeSet<Segment> = losses.iter().map(|(segment, _)| *segment).collect();
    let of = if segments.len() == 1 { "it" } else { "them" };
    let calls = match losses.len() {
        1 => format!("open call of {of} hands"),
        _ => format!("open calls of {of} hand"),
    };
    let again = givers.iter().find(|giver| segments.contains(giver));
    let but = match (again, givers.first()) {
        (Some(_), _) if segments.len() == 1 => ", but a new one would".to_string(),
        (Some(giver), _) | (None, Some(giver)) => {
            format!(", but a new call of {} would", state.said(*giver))
        }
        (None, None) => String::new(),
    };
    format!("this thread's {calls} it over no more{but}")
}

/// The code segments that hand a key over to who calls them now.
fn givers(state: &State, key: Key) -> Vec<Segment> {
    let key = for_reference(key);
    let segments = state.history.segments();
    let giving = segments.filter(|number| {
        let segment = state.history.segment(*number);
        segment.is_some_and(|segment| !segment.sheet && segment.list.contains(&key))
    });
    giving.map(Segment).collect()
}
