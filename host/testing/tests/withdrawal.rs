//! What open calls hand over (document 02, P5), told a third time: from the accepted
//! calls of a list alone, each time from the first on. The reference guard and the
//! history are asked the same, after lists at random.
//!
//! `cargo test --release -- --nocapture` also prints how often each sort of T came.

use reference::call::Call;
use reference::guard::{Answer, Guard, Refusal};
use reference::history::History;
use reference::journal::Record;
use reference::{Key, Kind};
use std::collections::{BTreeMap, BTreeSet};
use testing::calls::{Caller, WORLDS, told};
use testing::random::Random;
use testing::withdrawals;

/// Lists of withdrawals.
const LISTS: usize = 2_000;
/// Lists of each of the first two worlds.
const LISTS_OF_A_WORLD: usize = 60;
/// Each sort of T must come this often in lists of withdrawals.
const OFTEN: usize = LISTS / 8;

/// What an accepted call has to do with open calls and their keys.
#[derive(Clone, Copy, PartialEq, Eq)]
enum Event {
    Called { thread: u16, segment: u16 },
    Returned { thread: u16 },
    Ended { thread: u16 },
    Given { segment: u16, key: u16 },
    Taken { segment: u16, key: u16 },
}

impl Event {
    fn of(call: Call) -> Option<Event> {
        match call {
            Call::CallSegment { thread, segment } => Some(Event::Called { thread, segment }),
            Call::ReturnCall { thread } => Some(Event::Returned { thread }),
            Call::EndThread { thread } => Some(Event::Ended { thread }),
            Call::GiveKey { segment, key, .. } => Some(Event::Given { segment, key }),
            Call::TakeKey { segment, key, .. } => Some(Event::Taken { segment, key }),
            _ => None,
        }
    }
}

/// An open call, by its place among the events.
#[derive(Clone, Copy)]
struct Open {
    place: usize,
    thread: u16,
    segment: u16,
}

/// The events of a list, in order.
#[derive(Default)]
struct Log {
    events: Vec<Event>,
}

impl Log {
    /// The open calls of all threads, the oldest first.
    fn open_calls(&self) -> Vec<Open> {
        let mut open: Vec<Open> = Vec::new();
        for (place, event) in self.events.iter().enumerate() {
            match *event {
                Event::Called { thread, segment } => open.push(Open {
                    place,
                    thread,
                    segment,
                }),
                Event::Returned { thread } => {
                    let newest = open.iter().rposition(|call| call.thread == thread);
                    open.remove(newest.expect("an accepted R has an open call"));
                }
                Event::Ended { thread } => open.retain(|call| call.thread != thread),
                Event::Given { .. } | Event::Taken { .. } => {}
            }
        }
        open
    }

    /// Whether the key was in the segment's list before this place: the last that
    /// was done about it was to give it.
    fn was_listed(&self, place: usize, segment: u16, key: u16) -> bool {
        let given = Event::Given { segment, key };
        let taken = Event::Taken { segment, key };
        let mut before = self.events[..place].iter().rev();
        before.find(|event| [given, taken].contains(event)) == Some(&given)
    }

    /// Whether the open call found the key in its segment's list.
    fn found(&self, call: Open, key: u16) -> bool {
        self.was_listed(call.place, call.segment, key)
    }

    /// Whether the key was taken from the segment since the call was made.
    fn taken_since(&self, call: Open, key: u16) -> bool {
        let segment = call.segment;
        self.events[call.place..].contains(&Event::Taken { segment, key })
    }

    fn hands_over(&self, call: Open, key: Key) -> bool {
        match key.kind {
            Kind::User | Kind::Thread => false,
            Kind::Segment => call.segment == key.number,
            Kind::Defined => self.found(call, key.number) && !self.taken_since(call, key.number),
        }
    }
}

/// What a T came to.
#[derive(Clone, Copy, Debug, PartialEq, Eq, PartialOrd, Ord)]
enum Sort {
    /// Accepted, and no open call hands the key over.
    FromTheListAlone,
    /// Accepted, and open calls lose it: one, or more of one thread.
    FromACall,
    FromCallsOfAThread,
    /// Some of them of another thread than the editor's, and of another user's.
    FromAnotherThread,
    FromAnotherUser,
    /// And the thread still holds it by way of another segment.
    StillHeld,
    /// Refused, by this number, while an open call of the segment hands it over.
    InVain(u32),
    /// Refused by 9, while an open call of another segment hands it over.
    FromTheWrongList,
}

use Sort::*;

const SORTS: [Sort; 9] = [
    FromTheListAlone,
    FromACall,
    FromCallsOfAThread,
    FromAnotherThread,
    FromAnotherUser,
    StillHeld,
    InVain(2),
    InVain(6),
    FromTheWrongList,
];

/// How often each came. A call that has lost a key may be open when it is given
/// again.
#[derive(Debug, Default)]
struct Tally {
    takes: BTreeMap<Sort, usize>,
    given_again: usize,
}

#[derive(Default)]
struct Office {
    guard: Guard,
    history: History,
    log: Log,
    tally: Tally,
}

impl Office {
    fn call(&mut self, record: &Record) -> Answer {
        let call = Call::of(record);
        let before = self.log.open_calls();
        let answer = told(&mut self.guard, &mut self.history, record);
        match call {
            Some(Call::TakeKey {
                thread,
                segment,
                key,
            }) => {
                for sort in self.sorts(&before, [thread, segment, key], answer) {
                    *self.tally.takes.entry(sort).or_default() += 1;
                }
            }
            Some(Call::GiveKey { segment, key, .. }) if answer.is_ok() => {
                let mut of_segment = before.iter().filter(|call| call.segment == segment);
                let has_lost =
                    |call: &Open| self.log.found(*call, key) && self.log.taken_since(*call, key);
                self.tally.given_again += usize::from(of_segment.any(has_lost));
            }
            _ => {}
        }
        if answer.is_ok() {
            self.log.events.extend(call.and_then(Event::of));
        }
        answer
    }

    /// What a T comes to, with the calls that are open before it.
    fn sorts(&self, open: &[Open], [thread, segment, key]: [u16; 3], answer: Answer) -> Vec<Sort> {
        let key = defined(key);
        let with_key = open.iter().filter(|call| self.log.hands_over(**call, key));
        let (lose, others): (Vec<&Open>, Vec<&Open>) =
            with_key.partition(|call| call.segment == segment);
        let user = |thread: u16| self.history.thread(thread).map(|thread| thread.user);
        let threads: BTreeSet<u16> = lose.iter().map(|call| call.thread).collect();
        let is_another = |other: &u16| *other != thread;
        let is_anothers = |other: &u16| user(*other) != user(thread);
        let is_held = |other: &u16| others.iter().any(|call| call.thread == *other);
        let sorts = match answer {
            Ok(_) => vec![
                (FromTheListAlone, lose.is_empty()),
                (FromACall, !lose.is_empty()),
                (FromCallsOfAThread, lose.len() > threads.len()),
                (FromAnotherThread, threads.iter().any(is_another)),
                (FromAnotherUser, threads.iter().any(is_anothers)),
                (StillHeld, threads.iter().any(is_held)),
            ],
            Err(Refusal::NotPresent) if lose.is_empty() => {
                vec![(FromTheWrongList, !others.is_empty())]
            }
            Err(refusal) => vec![(InVain(refusal.number()), !lose.is_empty())],
        };
        let came = sorts.into_iter().filter(|(_, came)| *came);
        came.map(|(sort, _)| sort).collect()
    }

    /// Every key of every live thread, by the log, the guard and the history.
    fn compare(&self) {
        let open = self.log.open_calls();
        let issued = self.history.issued();
        let of_kind = |kind| {
            let key = move |number| Key { kind, number };
            (0..=issued.count(kind) as u16).map(key)
        };
        let keys: Vec<Key> = of_kind(Kind::Segment)
            .chain(of_kind(Kind::Defined))
            .collect();
        for thread in self.history.live_threads() {
            let mut own = open.clone();
            own.retain(|call| call.thread == thread);
            let held = self.history.key_set(thread).expect("it is live");
            let live = self.guard.thread(thread).expect("it is live");
            for key in &keys {
                let mut newest_first = own.iter().rev();
                let place = newest_first.position(|call| self.log.hands_over(*call, *key));
                let holds = [live.holds(*key), held.contains(key)];
                assert_eq!(holds, [place.is_some(); 2], "{thread} {key:?}");
                let by_guard = self.guard.find_key(thread, *key).ok();
                let found = [by_guard, self.history.find_key(thread, *key)];
                assert_eq!(found, [Some(place); 2], "{thread} {key:?}");
            }
        }
    }
}

fn defined(number: u16) -> Key {
    let kind = Kind::Defined;
    Key { kind, number }
}

#[test]
fn lists_of_withdrawals() {
    let mut random = Random::new(90);
    let mut total = Tally::default();
    for _ in 0..LISTS {
        let mut office = Office::default();
        for record in withdrawals::list(&mut random) {
            let answer = office.call(&record);
            if answer.is_ok() && b"GTCRE".contains(&record.letter) {
                office.compare();
            }
        }
        for (sort, count) in office.tally.takes {
            *total.takes.entry(sort).or_default() += count;
        }
        total.given_again += office.tally.given_again;
    }
    println!("{total:?}");
    for sort in SORTS {
        let count = total.takes.get(&sort).copied().unwrap_or(0);
        assert!(count >= OFTEN, "{sort:?} came {count} times");
    }
    assert!(total.given_again >= OFTEN, "{total:?}");
    // What an open call hands over is in its segment's list, so by 3, 4 and 9 no such
    // T is refused.
    for number in [3, 4, 9] {
        assert_eq!(total.takes.get(&InVain(number)), None);
    }
}

/// A few of everything, and deep stacks.
#[test]
fn lists_of_other_worlds() {
    let mut random = Random::new(91);
    for list in 0..2 * LISTS_OF_A_WORLD {
        let mut office = Office::default();
        let mut caller = Caller::new(&mut random, &WORLDS[list % 2]);
        for _ in 0..caller.length() {
            let record = caller.next_call();
            if let Ok(answer) = office.call(&record) {
                caller.learn(&record, answer);
                if b"GT".contains(&record.letter) {
                    office.compare();
                }
            }
        }
        office.compare();
    }
}
