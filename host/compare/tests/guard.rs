//! The proved guard against the reference: the worked examples, lists of
//! withdrawals, lists of locks and long lists of calls, with the same answer to every
//! call, and every cell of the arrays compared after each.
//!
//! `ROTUNDAALOE_CALLS=200000000 cargo test --release --test guard` makes that
//! many calls in the lists, instead of 20,000,000. With `-- --nocapture` it also
//! prints how often each letter came to each outcome.

mod guards;

use guards::pair::Pair;
use guards::tally::Tally;
use reference::guard::Refusal;
use reference::history::{History, Verdict};
use reference::journal::Record;
use std::{env, thread};
use testing::calls::{Caller, WORLDS, World};
use testing::random::Random;
use testing::tightness;
use testing::trials::TRIALS;
use testing::withdrawals;

const CALLS_VARIABLE: &str = "ROTUNDAALOE_CALLS";
const CALLS: u64 = 20_000_000;
/// The history is asked too in one of this many lists.
const HISTORY_LISTS: u64 = 16;
const WITHDRAWAL_LISTS: usize = 1_000;
const LOCK_LISTS: usize = 1_000;

#[test]
fn worked_examples() {
    for (name, trial) in TRIALS {
        println!("{name}");
        trial(&mut Pair::new());
    }
}

/// Every C, R and A is made by its own function too, one in two. Answers how many frames
/// lost a key, and how many checks were compared after the list.
fn compare_list(list: &[Record]) -> (usize, u64) {
    let mut pair = Pair::new();
    let mut history = History::new();
    for (turn, record) in list.iter().enumerate() {
        let answer = pair.call(record, turn % 2 == 1);
        history.feed(record, answer.ok());
    }
    let checks = pair.compare_checks(history.segments().count());
    (pair.withdrawn, checks)
}

#[test]
fn lists_of_withdrawals() {
    let mut random = Random::new(97);
    let (mut withdrawn, mut checks) = (0, 0);
    for _ in 0..WITHDRAWAL_LISTS {
        let (frames, compared) = compare_list(&withdrawals::list(&mut random));
        withdrawn += frames;
        checks += compared;
    }
    println!("{withdrawn} frames lost a key, and {checks} checks");
    assert!(withdrawn > 10 * WITHDRAWAL_LISTS, "{withdrawn}");
}

/// Whichever lock answers, a call leaves the same cells.
#[test]
fn lists_of_locks() {
    let mut random = Random::new(104);
    let lists = (0..LOCK_LISTS).map(|_| tightness::list(&mut random));
    let checks: u64 = lists.map(|list| compare_list(&list).1).sum();
    println!("{checks} checks");
    assert!(checks > 10 * LOCK_LISTS as u64, "{checks}");
}

/// Names the list, if it fails.
struct Named<'a> {
    world: &'a World,
    list: u64,
}

impl Drop for Named<'_> {
    fn drop(&mut self) {
        if thread::panicking() {
            eprintln!("in list {} of '{}'", self.list, self.world.name);
        }
    }
}

/// Lists of one kind, at least so many calls in all.
fn compare_lists(world: &World, seed: u64, calls: u64) -> Tally {
    let mut random = Random::new(seed);
    let mut tally = Tally::default();
    let mut checks = 0;
    let mut withdrawn = 0;
    for list in 0.. {
        if tally.calls() >= calls {
            break;
        }
        let _named = Named { world, list };
        let mut pair = Pair::new();
        let mut caller = Caller::new(&mut random, world);
        let mut history = (list % HISTORY_LISTS == 0).then(History::new);
        for turn in 0..caller.length() {
            let record = caller.next_call();
            let verdict = history
                .as_ref()
                .and_then(|history| history.verdict(&record));
            let answer = pair.call(&record, turn % 2 == 1);
            if let Some(verdict) = verdict {
                let given = match answer {
                    Ok(lock) => Verdict::Granted(lock),
                    Err(Refusal::Denied(lock)) => Verdict::Denied(lock),
                    Err(Refusal::Full) => Verdict::Full,
                    Err(Refusal::NotGranted) => Verdict::NotGranted,
                    Err(refusal) => panic!("{refusal:?} to {record:?}, which fits"),
                };
                assert_eq!(given, verdict, "{record:?}");
            }
            if let Some(history) = &mut history {
                history.feed(&record, answer.ok());
            }
            if let Ok(answer) = answer {
                caller.learn(&record, answer);
            }
        }
        checks += pair.compare_checks(caller.segments());
        tally.merge(&pair.tally);
        withdrawn += pair.withdrawn;
    }
    let name = world.name;
    println!("{name}: {withdrawn} frames lost a key, and {checks} checks after {tally}");
    tally
}

#[test]
fn lists_of_every_world() {
    let calls = match env::var(CALLS_VARIABLE) {
        Ok(calls) => calls.parse().expect("a number of calls"),
        Err(_) => CALLS,
    };
    let each = calls.div_ceil(WORLDS.len() as u64);
    let mut total = Tally::default();
    thread::scope(|scope| {
        let worlds = WORLDS.iter().zip(100..);
        let running: Vec<_> = worlds
            .map(|(world, seed)| scope.spawn(move || compare_lists(world, seed, each)))
            .collect();
        for world in running {
            total.merge(&world.join().expect("the guards agree on every list"));
        }
    });
    println!("all lists: {total}");
    assert!(total.calls() >= calls && total.refused() >= calls / 4);
    total.assert_complete((calls / 200_000).max(1));
}
