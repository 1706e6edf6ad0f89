//! The host library in Rust against the reference: the twelve calls by their
//! typed functions, journals, and the products of formula texts.

use compare::journal::lent;
use compare::typed::{key, literal};
use reference::Key as ReferenceKey;
use reference::call::Call;
use reference::journal::{Record, write};
use reference::letter::Letter;
use reference::operations::{READ, WRITE};
use rotundaaloe::formula::{Issued, Key, compile};
use rotundaaloe::{
    Access, Defined, Guard, Journal, Kind, Lock, Operations, Refusal, Segment, Thread, User,
};
use std::collections::BTreeSet;
use testing::calls::{Caller, WORLDS, outcomes};
use testing::random::Random;
use testing::shapes;

/// An answer's number, or both of its refusal.
type Numbers = Result<u16, (u32, u16)>;

/// A number in its type, or a refusal of its call, as document 01's numbers.
fn numbers<T, E: Into<Refusal>>(answer: Result<T, E>, number: impl FnOnce(T) -> u16) -> Numbers {
    answer.map(number).map_err(|refusal| {
        let refusal = refusal.into();
        (refusal.number(), refusal.second())
    })
}

/// A call by its typed function, or by its letter where no typed one can say it.
fn called(guard: &mut Guard, record: &Record) -> Numbers {
    let typed = Call::of(record).and_then(|call| typed(guard, call));
    typed.unwrap_or_else(|| numbers(guard.call(lent(record)), |n| n))
}

/// A call by its typed function; `None` where there is none that can say it.
fn typed(guard: &mut Guard, call: Call) -> Option<Numbers> {
    Some(match call {
        Call::NewUser => numbers(guard.new_user(), |User(n)| n),
        Call::StartThread { user } => numbers(guard.start_thread(User(user)), |Thread(n)| n),
        Call::EndThread { thread } => numbers(guard.end_thread(Thread(thread)), |n| n),
        Call::NewSegment { thread, kind } => {
            let segment = guard.new_segment(Thread(thread), kind_of(kind)?);
            numbers(segment, |Segment(n)| n)
        }
        Call::NewKey { thread } => numbers(guard.new_key(Thread(thread)), |Defined(n)| n),
        Call::GiveKey {
            thread,
            segment,
            key,
        } => {
            let keys = guard.give_key(Thread(thread), Segment(segment), Defined(key));
            numbers(keys, |n| n)
        }
        Call::TakeKey {
            thread,
            segment,
            key,
        } => {
            let keys = guard.take_key(Thread(thread), Segment(segment), Defined(key));
            numbers(keys, |n| n)
        }
        Call::AddLock {
            thread,
            segment,
            operations,
            text,
        } => {
            let (text, operations) = (str::from_utf8(text).ok()?, Operations(operations));
            let lock = guard.add_lock(Thread(thread), Segment(segment), operations, text);
            numbers(lock, |Lock(n)| n)
        }
        Call::DropLock { thread, lock } => {
            let products = guard.drop_lock(Thread(thread), Lock(lock));
            numbers(products, |n| n)
        }
        Call::CallSegment { thread, segment } => {
            let lock = guard.call_segment(Thread(thread), Segment(segment));
            numbers(lock, |Lock(n)| n)
        }
        Call::ReturnCall { thread } => numbers(guard.return_call(Thread(thread)), |Segment(n)| n),
        Call::Access {
            thread,
            segment,
            operation,
        } => {
            let lock = guard.access(Thread(thread), Segment(segment), access_of(operation)?);
            numbers(lock, |Lock(n)| n)
        }
    })
}

fn kind_of(number: u16) -> Option<Kind> {
    match number {
        0 => Some(Kind::Code),
        1 => Some(Kind::Sheet),
        _ => None,
    }
}

fn access_of(number: u16) -> Option<Access> {
    match number {
        READ => Some(Access::Read),
        WRITE => Some(Access::Write),
        _ => None,
    }
}

#[test]
fn calls_by_their_types() {
    let mut random = Random::new(7);
    let mut seen = BTreeSet::new();
    for list in 0..400 {
        let mut guard = Guard::new();
        let mut reference = reference::guard::Guard::new();
        let mut caller = Caller::new(&mut random, &WORLDS[list % WORLDS.len()]);
        for _ in 0..caller.length() {
            let record = caller.next_call();
            let answer = reference.call(record.letter, record.a, record.b, record.c, &record.text);
            let expected = answer.map_err(|refusal| (refusal.number(), refusal.second()));
            let before = expected.is_err().then(|| guard.clone());
            assert_eq!(called(&mut guard, &record), expected, "{record:?}");
            if let Some(before) = before {
                assert!(guard == before, "{record:?} is refused and changes a cell");
            }
            seen.insert((
                record.letter,
                expected.err().map_or(0, |(number, _)| number),
            ));
            if let Ok(answer) = answer {
                caller.learn(&record, answer);
            }
        }
    }
    for letter in Letter::ALL {
        let possible = outcomes(letter.byte());
        assert!(possible.len() > 1 && possible[0] == 0, "{letter:?}");
        for outcome in possible {
            let came = seen.contains(&(letter.byte(), *outcome));
            assert!(came, "{letter:?} never came to {outcome}");
        }
    }
}

#[test]
fn a_kept_state_goes_on() {
    let mut guard = Guard::new();
    let user = guard.new_user().expect("the first");
    let thread = guard.start_thread(user).expect("the first");
    let sheet = guard.new_segment(thread, Kind::Sheet).expect("the first");
    let lock = guard.add_lock(thread, sheet, Operations::READ, "U0");
    let kept = Guard::from_bytes(&guard.to_bytes()).expect("a state file");
    assert!(kept == guard);
    assert_eq!(kept.access(thread, sheet, Access::Read).ok(), lock.ok());
}

#[test]
fn journals_append_and_read() {
    let mut random = Random::new(8);
    for list in 0..200 {
        let mut caller = Caller::new(&mut random, &WORLDS[list % WORLDS.len()]);
        let mut journal = Journal::new();
        let mut records = Vec::new();
        for _ in 0..caller.length().min(500) {
            let record = caller.next_call();
            let fits = reference::journal::fits(&record);
            let answer = journal.append(lent(&record));
            let expected = match fits {
                true => Ok(()),
                false => Err(rotundaaloe::refusal::Append::Corrupt),
            };
            assert_eq!(answer, expected, "{record:?}");
            if fits {
                records.push(record);
            }
        }
        let file = write(&records);
        assert!(journal.as_bytes() == file);
        assert!(journal.records().eq(records.iter().map(lent)));
        assert_eq!(Journal::from_bytes(&file).as_ref(), Ok(&journal));
    }
}

#[test]
fn a_full_journal_takes_no_more() {
    let record = rotundaaloe::Record {
        letter: b'L',
        a: 0,
        b: 0,
        c: 0,
        text: &[b'!'; 96],
    };
    let mut journal = Journal::new();
    for _ in 0..624 {
        assert_eq!(journal.append(record), Ok(()));
    }
    let before = journal.clone();
    let full = Err(rotundaaloe::refusal::Append::Full);
    assert_eq!(journal.append(record), full);
    assert_eq!(journal, before);
    assert_eq!(journal.as_bytes().len(), 65_527);
}

#[test]
fn products_and_what_opens_them() {
    let issued = Issued {
        users: 65_536,
        threads: 65_536,
        segments: 65_536,
        defined: 65_536,
    };
    let mut random = Random::new(9);
    let (mut opened, mut shut) = (0, 0);
    for name in shapes::texts() {
        let text = name.as_bytes();
        let expected = reference::formula::compile(text, &reference::Issued::ALL);
        let given = compile(text, issued);
        let (Ok(expected), Ok(given)) = (&expected, &given) else {
            let expected = expected.err().map(|refusal| refusal.number());
            let given = given.err().map(|refusal| Refusal::from(refusal).number());
            assert_eq!(given, expected, "{}", name);
            continue;
        };
        assert_eq!(given.len(), expected.len(), "{}", name);
        for (given, expected) in given.iter().zip(expected) {
            let literals = expected.literals().iter().map(literal);
            assert!(given.literals().iter().copied().eq(literals), "{}", name);
            for _ in 0..50 {
                // Mostly as the product asks, so that some sets open it.
                let held: BTreeSet<ReferenceKey> = expected
                    .literals()
                    .iter()
                    .filter(|literal| literal.barred == random.one_in(8))
                    .map(|literal| literal.key)
                    .collect();
                let keys: Vec<Key> = held.iter().map(key).collect();
                let opens = expected.is_opened_by(&held);
                assert_eq!(given.opens(&keys), opens, "{keys:?}: {}", name);
                *if opens { &mut opened } else { &mut shut } += 1;
            }
        }
    }
    assert!(opened > 500 && shut > 500, "{opened} opened, {shut} shut");
}
