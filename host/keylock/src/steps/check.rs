//! Whether an explanation leads to the proved guard's answer. It always does,
//! unless this library is wrong.

use super::choice;
use super::judgement::Judgement;
use super::product::Literal;
use super::shown_keys;
use super::state::{Loss, State, for_history, for_reference};
use super::view::{self, SegmentView};
use rotundaaloe::formula::Key;
use rotundaaloe::limits::MOST_OPEN_CALLS;
use rotundaaloe::{Guard, Lock, LockRow, Operations, Record, Refusal, Thread};

/// What the explanation of an answered call and the answer differ in. Asked
/// before the call is taken in.
pub fn disagreement(
    state: &State,
    record: &Record,
    answer: Result<u16, Refusal>,
    judgement: Option<&Judgement>,
) -> Option<String> {
    let Some(judgement) = judgement else {
        return unjudged_disagreement(state, record, answer);
    };
    for lock in &judgement.locks {
        for product in &lock.products {
            if product.opens != product.literals.iter().all(Literal::agrees) {
                let number = lock.lock.number;
                let keys = shown_keys(&judgement.keys);
                return Some(format!("lock {number}'s literals and products, on {keys}"));
            }
        }
    }
    let drawn = drawn(state, judgement);
    if drawn != answer {
        return Some(format!(
            "the locks say {drawn:?}, the guard says {answer:?}"
        ));
    }
    misplaced(state, judgement)
}

/// A key whose newest open call is another by the history than by the guard.
fn misplaced(state: &State, judgement: &Judgement) -> Option<String> {
    let products = judgement.locks.iter().flat_map(|tried| &tried.products);
    let mut literals = products.flat_map(|product| &product.literals);
    literals.find_map(|literal| {
        let key = literal.literal.key();
        found_elsewhere(state, judgement.thread, key, literal.place)
    })
}

/// The same for the keys that open calls lost by a call. Asked after the call is
/// taken in.
pub fn withdrawn_disagreement(state: &State, guard: &Guard, losses: &[Loss]) -> Option<String> {
    losses.iter().find_map(|loss| {
        let found = guard.find_key(loss.thread, loss.key).unwrap_or(None);
        found_elsewhere(state, loss.thread, loss.key, found)
    })
}

/// What the history and the guard differ in, where the guard found a key there.
fn found_elsewhere(
    state: &State,
    thread: Thread,
    key: Key,
    found: Option<usize>,
) -> Option<String> {
    let wanted = for_reference(key);
    let mut newest_first = state.open_calls(thread).iter().rev();
    let read = newest_first.position(|call| call.list.contains(&wanted));
    let differs = || format!("the history has {key} from {read:?}, the guard from {found:?}");
    (found != read).then(differs)
}

/// The answer that follows from the locks: the lowest deny lock that opens, else the
/// tightest grant lock.
fn drawn(state: &State, judgement: &Judgement) -> Result<u16, Refusal> {
    let mut locks = judgement.locks.iter();
    let denying = locks.find(|tried| tried.lock.denies() && tried.opens());
    let open_calls = state.open_calls(judgement.thread).len();
    match (denying, choice::tightest(judgement)) {
        (Some(tried), _) => Err(Refusal::Denied(Lock(tried.lock.number))),
        (None, None) => Err(Refusal::NotGranted),
        (None, Some(_)) if judgement.operation == 1 && open_calls >= MOST_OPEN_CALLS => {
            Err(Refusal::Full)
        }
        (None, Some(tried)) => Ok(tried.lock.number),
    }
}

fn unjudged_disagreement(
    state: &State,
    record: &Record,
    answer: Result<u16, Refusal>,
) -> Option<String> {
    match answer {
        Err(Refusal::Denied(_) | Refusal::NotGranted) => {
            Some("the guard tried locks, the history doesn't".to_string())
        }
        Err(_) => None,
        Ok(given) => {
            let read = state.history.answer(&for_history(record));
            let differs = read != Some(u32::from(given));
            differs.then(|| format!("the history says {read:?}, the guard says {given}"))
        }
    }
}

/// What a segment's standing locks and the lock lists that the guard shows of it
/// differ in.
pub fn listed_disagreement(segment: &SegmentView) -> Option<String> {
    let owners: Vec<LockRow> = segment.locks.iter().flat_map(owners_rows).collect();
    let colleagues: Vec<LockRow> = segment.locks.iter().map(colleagues_row).collect();
    let lists = &segment.lists;
    let same = lists.owners == owners && lists.colleagues == colleagues;
    (!same).then(|| format!("the locks say {owners:?}, the guard lists {lists:?}"))
}

fn owners_rows(lock: &view::Lock) -> impl Iterator<Item = LockRow> {
    lock.products.iter().map(|product| LockRow {
        keys: product.literals().to_vec(),
        ..colleagues_row(lock)
    })
}

fn colleagues_row(lock: &view::Lock) -> LockRow {
    LockRow {
        lock: Lock(lock.number),
        operations: Operations(lock.operations & 7),
        deny: lock.denies(),
        keys: Vec::new(),
    }
}

#[cfg(test)]
mod tests {
    use crate::steps::{Entry, Teller};
    use crate::text;

    /// A teller that has taken in these calls.
    fn told(calls: &str) -> Teller {
        let text = text::parse(calls.as_bytes()).expect("a text journal");
        let mut teller = Teller::default();
        for (place, (_, record)) in text.calls().enumerate() {
            teller.step(place, record.into());
        }
        teller
    }

    /// What is wrong with the step of one more call.
    fn wrong(teller: &mut Teller, call: &str) -> Option<String> {
        let text = text::parse(call.as_bytes()).expect("a text journal");
        let (_, record) = text.calls().next().expect("a call");
        teller.step(4, Entry::from(record)).disagreement
    }

    /// A guard whose lock asks for another key that the thread holds: it answers
    /// alike, and only the owner's lists differ.
    #[test]
    fn lists_that_differ_are_told_at_an_access() {
        let mut teller = told("U\nS 0\nN 0 1\nL 0 0 2 U0\n");
        assert_eq!(wrong(&mut teller, "A 0 0 2"), None);
        teller.guard = told("U\nS 0\nN 0 1\nL 0 0 2 R0\n").guard;
        for access in ["A 0 0 2", "A 0 0 4", "A 9 0 2"] {
            let wrong = wrong(&mut teller, access).expect("lists that differ");
            assert!(wrong.starts_with("the locks say [LockRow "), "{wrong}");
            assert!(wrong.contains(", the guard lists "), "{wrong}");
        }
    }

    /// A guard that answers the looser lock, or of equally tight ones the higher: its
    /// locks ask for other keys than those of the history.
    #[test]
    fn another_lock_than_the_tightest_is_told() {
        let locked = |locks: &str| told(&format!("U\nS 0\nN 0 1\n{locks}"));
        for (read, asked, differs) in [
            (
                "L 0 0 2 U0\nL 0 0 2 U0&R0\n",
                "L 0 0 2 U0&R0\nL 0 0 2 U0\n",
                "the locks say Ok(1), the guard says Ok(0)",
            ),
            (
                "L 0 0 2 U0\nL 0 0 2 R0\n",
                "L 0 0 2 U0\nL 0 0 2 U0&R0\n",
                "the locks say Ok(0), the guard says Ok(1)",
            ),
        ] {
            let mut teller = locked(read);
            assert_eq!(wrong(&mut teller, "A 0 0 2"), None, "{read}");
            teller.guard = locked(asked).guard;
            let wrong = wrong(&mut teller, "A 0 0 2");
            assert_eq!(wrong.as_deref(), Some(differs), "{read}");
        }
    }

    /// Two parts, each of which hands over its own key and D0, and a sheet that
    /// S0 and D0 open.
    const PARTS: &str = "U\nS 0\nN 0 0\nN 0 0\nN 0 1\nK 0\nG 0 0 0\nG 0 1 0\n\
                         L 0 0 1 U0\nL 0 1 1 U0\nL 0 2 2 S0&D0\n";

    /// A guard whose open calls stand the other way round: it answers alike, and
    /// finds D0 in the newest too, but S0 elsewhere.
    #[test]
    fn a_key_found_elsewhere_is_told() {
        let calls = |order: &str| told(&format!("{PARTS}{order}"));
        let mut teller = calls("C 0 0\nC 0 1\n");
        assert_eq!(wrong(&mut teller, "A 0 2 2"), None);
        teller.guard = calls("C 0 1\nC 0 0\n").guard;
        let differs = "the history has S0 from Some(1), the guard from Some(0)";
        assert_eq!(wrong(&mut teller, "A 0 2 2").as_deref(), Some(differs));
        // One without the open call of segment 0 finds S0 nowhere.
        teller.guard = calls("C 0 1\n").guard;
        let differs = wrong(&mut teller, "A 0 2 2").expect("a key that isn't found");
        assert!(
            differs.starts_with("lock 2's literals and products"),
            "{differs}"
        );
    }

    /// A guard whose thread called the other part: the open call of the history loses
    /// D0, and the guard's hands it over still.
    #[test]
    fn a_key_that_is_not_withdrawn_is_told() {
        let calls = |part: &str| told(&format!("{PARTS}{part}"));
        assert_eq!(wrong(&mut calls("C 0 0\n"), "T 0 0 0"), None);
        let mut teller = calls("C 0 0\n");
        teller.guard = calls("C 0 1\n").guard;
        let differs = "the history has D0 from None, the guard from Some(0)";
        assert_eq!(wrong(&mut teller, "T 0 0 0").as_deref(), Some(differs));
    }
}
