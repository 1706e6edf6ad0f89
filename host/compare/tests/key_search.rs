//! The proved key search (document 02, P3) against the reference's and the
//! history's: after lists of calls, for every thread and every key that is handed
//! out, and for some that aren't. What is found is also compared with what the
//! library tells of the open calls and of the key set, also on arrays that no list
//! leads to.
//!
//! Faulty searches, each with another answer somewhere, are found by the same
//! comparison. With `-- --nocapture` it also prints how often keys were found at
//! each place.

#[path = "guards/faulty_search.rs"]
mod faulty_search;
#[path = "guards/filling.rs"]
mod filling;

use compare::journal::lent;
use compare::typed;
use faulty_search::{FAULTS, Faulty};
use filling::{FILLINGS, Filling};
use reference::guard::Answer;
use reference::history::{History, OpenCall};
use reference::journal::Record;
use reference::limits::{MAX_FRAMES, MAX_LIST_KEYS};
use reference::operations::EXECUTE;
use reference::{Key, Kind};
use rotundaaloe::{Guard, Refusal, Thread, formula, view};
use std::collections::{BTreeMap, BTreeSet};
use testing::calls::{Caller, WORLDS, World, call, lock};
use testing::neighbours::crowd;
use testing::random::Random;
use testing::withdrawals;

/// Lists of each kind.
const LISTS: usize = 100;
/// Fewer are enough for each faulty search.
const FAULTY_LISTS: usize = 40;
const ARRAYS: usize = 1_000;

/// Of each kind of lists, one in this many is made: two kinds are long.
const SHARES: [usize; WORLDS.len()] = [1, 1, 5, 5, 1];
/// Steps for each thread to come to a deep stack.
const STEPS: usize = 48;

/// A number that no thread has in these lists.
const NOBODY: u16 = u16::MAX;

/// Numbers at which one key could be taken for another: 64 segments and 1,024
/// defined keys are ever handed out, and a number has 16 bits.
const EDGES: [u16; 16] = [
    0, 1, 36, 63, 64, 65, 100, 127, 128, 1_023, 1_024, 1_087, 65_470, 65_471, 65_472, 65_535,
];
/// How many numbers after the last that is handed out are asked for.
const BEYOND: u16 = 3;

/// What a search answers: the place, or none, or the refusal's number.
type Found = Result<Option<usize>, u32>;

const NO_THREAD: u32 = 2;

/// The guards after a list of calls, with what its calls and answers tell.
#[derive(Default)]
struct Office {
    reference: reference::guard::Guard,
    proved: Guard,
    history: History,
}

impl Office {
    fn after(list: &[Record]) -> Office {
        let mut office = Office::default();
        for record in list {
            let _ = office.call(record);
        }
        office
    }

    /// One call on both guards, which must give the same answer.
    fn call(&mut self, record: &Record) -> Answer {
        let answer = self
            .reference
            .call(record.letter, record.a, record.b, record.c, &record.text);
        let expected = answer.map_err(|refusal| (refusal.number(), refusal.second()));
        let given = self.proved.call(lent(record));
        let given = given.map_err(|refusal| (refusal.number(), refusal.second()));
        assert_eq!(given, expected, "{record:?}");
        self.history.feed(record, answer.ok());
        answer
    }

    /// Every code segment gets a lock that opens for everyone, if it has room and
    /// its owner a thread.
    fn open_to_all(&mut self) {
        for segment in Vec::from_iter(self.history.segments()) {
            let editor = self.editor(segment);
            let _ = self.call(&lock(editor, segment, EXECUTE, b"U0|!U0"));
        }
    }

    /// Threads call segments at random, and now and then return, while keys are
    /// given and taken, the first more often.
    fn descend(&mut self, random: &mut Random) {
        let threads = Vec::from_iter(self.history.live_threads());
        let segments = Vec::from_iter(self.history.segments());
        for _ in 0..STEPS * threads.len() {
            let (thread, segment) = (random.pick(&threads), random.pick(&segments));
            let record = match random.below(13) {
                0 => call(b'R', thread, 0, 0),
                1 => {
                    let key = self.newest_key(segment);
                    call(b'T', self.editor(segment), segment, key)
                }
                2 | 3 => {
                    let key = random.below(self.history.issued().defined as usize);
                    call(b'G', self.editor(segment), segment, key as u16)
                }
                _ => call(b'C', thread, segment, 0),
            };
            let _ = self.call(&record);
        }
    }

    /// A live thread of the segment's owner, which is started where there is none
    /// and there is room for it.
    fn editor(&mut self, segment: u16) -> u16 {
        let segment = self.history.segment(segment);
        let owner = segment.expect("it is handed out").owner;
        let is_owners = |thread: &u16| {
            let thread = self.history.thread(*thread);
            thread.is_some_and(|thread| thread.user == owner)
        };
        let live = self.history.live_threads().find(is_owners);
        let started = |office: &mut Office| office.call(&call(b'S', owner, 0, 0)).ok();
        live.or_else(|| started(self)).unwrap_or(NOBODY)
    }

    /// The key that was given to the segment last, or the segment's own.
    fn newest_key(&self, segment: u16) -> u16 {
        let segment = self.history.segment(segment);
        let list = &segment.expect("it is handed out").list;
        list[list.len() - 1].number
    }

    /// The threads to ask for.
    fn threads(&self) -> BTreeSet<u16> {
        numbers(self.history.issued().threads)
    }

    /// The keys to ask for, of every kind.
    fn keys(&self) -> Vec<Key> {
        let issued = self.history.issued();
        let of_kind = |kind| {
            let key = move |number| Key { kind, number };
            numbers(issued.count(kind)).into_iter().map(key)
        };
        Kind::ALL.into_iter().flat_map(of_kind).collect()
    }

    fn by_history(&self, thread: u16, key: Key) -> Found {
        self.history.find_key(thread, key).ok_or(NO_THREAD)
    }

    fn by_reference(&self, thread: u16, key: Key) -> Found {
        let found = self.reference.find_key(thread, key);
        found.map_err(|refusal| refusal.number())
    }

    fn by_proved(&self, thread: u16, key: Key) -> Found {
        find_key(&self.proved, Thread(thread), typed::key(&key))
    }
}

fn find_key(guard: &Guard, thread: Thread, key: formula::Key) -> Found {
    let found = guard.find_key(thread, key);
    found.map_err(|refusal| Refusal::from(refusal).number())
}

/// Every number below the count, some after it, and those at the edges.
fn numbers(count: u32) -> BTreeSet<u16> {
    let count = u16::try_from(count).expect("no list here hands out so many");
    (0..count + BEYOND).chain(EDGES).collect()
}

/// A question, what the history answers to it, and what was answered.
type Difference = (u16, Key, Found, Found);

/// The first question to which the search answers something else than the
/// history.
fn difference(office: &Office, search: impl Fn(u16, Key) -> Found) -> Option<Difference> {
    let keys = office.keys();
    let of_thread = |thread| {
        keys.iter().find_map(|key| {
            let (told, given) = (office.by_history(thread, *key), search(thread, *key));
            (told != given).then_some((thread, *key, told, given))
        })
    };
    office.threads().into_iter().find_map(of_thread)
}

/// A list at random, and the state after it.
fn drawn(random: &mut Random, world: &World) -> (Vec<Record>, Office) {
    let mut office = Office::default();
    let mut list = Vec::new();
    let mut caller = Caller::new(random, world);
    for _ in 0..caller.length() {
        let record = caller.next_call();
        if let Ok(answer) = office.call(&record) {
            caller.learn(&record, answer);
        }
        list.push(record);
    }
    (list, office)
}

/// Offices after lists of every kind, so many of each but for the long ones. Each
/// list is made again with other C, R and A, and goes on to deep stacks. Then as
/// many lists of withdrawals.
fn try_offices(lists: usize, mut attempt: impl FnMut(&Office)) {
    for ((world, seed), share) in WORLDS.iter().zip(80..).zip(SHARES) {
        let mut random = Random::new(seed);
        for _ in 0..lists / share {
            let (list, office) = drawn(&mut random, world);
            attempt(&office);
            let crowded = crowd(&mut random, world, NOBODY, &list);
            let mut office = Office::after(&crowded);
            attempt(&office);
            office.open_to_all();
            office.descend(&mut random);
            attempt(&office);
        }
    }
    let mut random = Random::new(86);
    for _ in 0..lists {
        attempt(&Office::after(&withdrawals::list(&mut random)));
    }
}

/// What the library tells of a live thread, too: the newest of the open calls with
/// the key, and that a key is held exactly when it is found, or is the thread's own
/// or its user's.
fn compare_with_view(office: &Office, thread: u16) {
    let live = office.proved.thread(Thread(thread)).expect("it is live");
    let keys = live.keys();
    let told = office.history.key_set(thread).expect("it is live");
    let second = office.reference.thread(thread).expect("it is live");
    for key in office.keys() {
        let asked = typed::key(&key);
        let place = newest_with(&live, asked);
        assert_eq!(office.by_proved(thread, key), Ok(place), "{thread} {key:?}");
        let is_held = place.is_some() || is_own(&live, key);
        let held = [
            keys.contains(&asked),
            told.contains(&key),
            second.holds(key),
        ];
        assert_eq!(held, [is_held; 3], "{thread} {key:?}");
    }
}

/// The place of the newest open call that hands the key over, as the library tells
/// of the open calls.
fn newest_with(thread: &view::Thread, key: formula::Key) -> Option<usize> {
    let mut frames = thread.frames.iter();
    frames.position(|frame| frame.keys.contains(&key))
}

/// Whether it is the thread's own key, or its user's.
fn is_own(thread: &view::Thread, key: Key) -> bool {
    match key.kind {
        Kind::User => thread.user.0 == key.number,
        Kind::Thread => thread.number.0 == key.number,
        Kind::Segment | Kind::Defined => false,
    }
}

/// What the questions were about.
#[derive(Debug, Default)]
struct Tally {
    /// S keys found at each place.
    segments: [usize; MAX_FRAMES],
    /// D keys found at each place.
    defined: [usize; MAX_FRAMES],
    /// A live thread's that no open call hands over, by kind.
    not_found: [usize; Kind::ALL.len()],
    /// Threads that aren't live.
    not_live: usize,
    /// Open calls, by how many keys each hands over.
    lists: [usize; MAX_LIST_KEYS + 1],
    /// Found keys that an older open call hands over too.
    handed_over_twice: usize,
    /// Found keys that no segment of the open calls has in its list now: none, since
    /// what is taken is withdrawn.
    taken_and_found: usize,
    /// Keys that aren't found, but that an open call found in its list.
    withdrawn: usize,
    /// Keys that a newer open call found in its list, and that an older one hands
    /// over.
    withdrawn_from_newer: usize,
    /// Keys that aren't found, but that a segment of the open calls has in its list
    /// now.
    given_since: usize,
}

impl Tally {
    fn add(&mut self, office: &Office) {
        for thread in office.threads() {
            let Some(live) = office.history.thread(thread) else {
                self.not_live += 1;
                continue;
            };
            for call in &live.open_calls {
                self.lists[call.list.len()] += 1;
            }
            for key in office.keys() {
                let place = office.by_history(thread, key).expect("it is live");
                self.add_place(key.kind, place);
                self.add_lists(&office.history, &live.open_calls, key);
            }
        }
    }

    fn add_place(&mut self, kind: Kind, place: Option<usize>) {
        let Some(place) = place else {
            self.not_found[kind as usize] += 1;
            return;
        };
        match kind {
            Kind::Segment => self.segments[place] += 1,
            Kind::Defined => self.defined[place] += 1,
            Kind::User | Kind::Thread => panic!("{kind:?} found at {place}"),
        }
    }

    fn add_lists(&mut self, history: &History, calls: &[OpenCall], key: Key) {
        let with_key = calls.iter().filter(|call| call.list.contains(&key));
        let with_key = with_key.count();
        let has_now = |call: &OpenCall| {
            let segment = history.segment(call.segment);
            segment.is_some_and(|segment| segment.list.contains(&key))
        };
        let is_now = calls.iter().any(has_now);
        let newest_found = calls.iter().rposition(|call| call.found.contains(&key));
        let newest = calls.iter().rposition(|call| call.list.contains(&key));
        self.handed_over_twice += usize::from(with_key > 1);
        self.taken_and_found += usize::from(with_key > 0 && !is_now);
        self.withdrawn += usize::from(newest_found.is_some() && newest.is_none());
        self.withdrawn_from_newer += usize::from(newest.is_some() && newest < newest_found);
        self.given_since += usize::from(with_key == 0 && is_now);
    }

    /// All of it must have come often.
    fn assert_complete(&self) {
        let mut found = self.segments.iter().chain(&self.defined);
        assert!(found.all(|count| *count > LISTS));
        assert!(self.not_found.iter().all(|count| *count > 100 * LISTS));
        assert!(self.lists[1..].iter().all(|count| *count > 10 * LISTS));
        assert!(self.not_live > 100 * LISTS);
        assert!(self.handed_over_twice > 100 * LISTS);
        assert_eq!(self.taken_and_found, 0);
        assert!(self.withdrawn > 10 * LISTS);
        assert!(self.withdrawn_from_newer > LISTS);
        assert!(self.given_since > 10 * LISTS);
    }
}

/// Every question to both guards, which changes nothing.
fn compare_searches(office: &Office) {
    let before = office.proved.clone();
    let by_proved = difference(office, |thread, key| office.by_proved(thread, key));
    assert_eq!(by_proved, None);
    let by_reference = difference(office, |thread, key| office.by_reference(thread, key));
    assert_eq!(by_reference, None);
    for thread in office.history.live_threads() {
        compare_with_view(office, thread);
    }
    assert!(office.proved == before, "a search changes a cell");
}

#[test]
fn lists_of_calls() {
    let mut tally = Tally::default();
    try_offices(LISTS, |office| {
        compare_searches(office);
        tally.add(office);
    });
    println!("{tally:?}");
    tally.assert_complete();
}

/// Every segment and every defined key is handed out. The older of two open calls
/// hands over S63 and defined keys at the edges, the newer one S0.
fn at_the_edges() -> Office {
    let mut list = vec![call(b'U', 0, 0, 0), call(b'S', 0, 0, 0)];
    for segment in 0..64 {
        list.push(call(b'N', 0, 0, 0));
        list.push(lock(0, segment, 1, b"U0"));
    }
    list.extend((0..1_024).map(|_| call(b'K', 0, 0, 0)));
    for key in [0, 1, 36, 63, 64, 1_023] {
        list.push(call(b'G', 0, 63, key));
    }
    list.push(call(b'C', 0, 63, 0));
    list.push(call(b'C', 0, 0, 0));
    let office = Office::after(&list);
    let calls = &office.history.thread(0).expect("it is live").open_calls;
    assert_eq!([calls[0].list.len(), calls[1].list.len()], [7, 1]);
    office
}

#[test]
fn numbers_at_the_edges() {
    compare_searches(&at_the_edges());
}

/// One key that is taken for another is found, each by itself.
#[test]
fn a_key_taken_for_another_is_found() {
    let office = at_the_edges();
    let s = |number| (Kind::Segment, number);
    let d = |number| (Kind::Defined, number);
    for (asked, other) in [
        (s(64), d(0)),
        (s(65), d(1)),
        (s(100), d(36)),
        (s(127), d(63)),
        (s(128), d(64)),
        (s(1_087), d(1_023)),
        (d(65_472), s(0)),
        (d(65_535), s(63)),
    ] {
        let search = |thread, key: Key| {
            let is_asked = (key.kind, key.number) == asked;
            let (kind, number) = if is_asked {
                other
            } else {
                (key.kind, key.number)
            };
            office.by_reference(thread, Key { kind, number })
        };
        let found = difference(&office, search).map(|(_, key, ..)| (key.kind, key.number));
        assert_eq!(found, Some(asked));
    }
}

/// A guard with arrays that no list of calls leads to.
fn filled(random: &mut Random, filling: Filling) -> Guard {
    let guard = match filling {
        Filling::Damaged => drawn(random, &WORLDS[1]).1.proved,
        Filling::Anything | Filling::Edges | Filling::Small => Guard::new(),
    };
    let mut cells = Box::new(guard.cells().clone());
    filling.fill(random, &mut cells);
    Guard::from_cells(cells)
}

/// Keys of every kind at the edges, and those that a thread's open calls hand over.
fn keys_around(thread: Option<&view::Thread>) -> BTreeSet<formula::Key> {
    let handed_over = thread.into_iter().flat_map(|thread| thread.keys());
    let edges = Kind::ALL.into_iter().flat_map(|kind| {
        let key = move |number| typed::key(&Key { kind, number });
        EDGES.into_iter().map(key)
    });
    handed_over.chain(edges).collect()
}

/// Of several threads with one number the guard answers for one.
#[test]
fn any_numbers_in_the_arrays() {
    let mut random = Random::new(85);
    let mut tally = BTreeMap::<Found, usize>::new();
    for turn in 0..ARRAYS {
        let guard = filled(&mut random, FILLINGS[turn % FILLINGS.len()]);
        let live = guard.threads().into_iter().map(|thread| thread.number.0);
        for thread in live.chain(EDGES).map(Thread).collect::<BTreeSet<Thread>>() {
            let live = guard.thread(thread);
            for key in keys_around(live.as_ref()) {
                let told = live.as_ref().map(|live| newest_with(live, key));
                let told = told.ok_or(NO_THREAD);
                assert_eq!(find_key(&guard, thread, key), told, "{thread} {key}");
                *tally.entry(told).or_default() += 1;
            }
        }
    }
    println!("{tally:?}");
    let places = (0..MAX_FRAMES).map(|place| Ok(Some(place)));
    for answer in places.chain([Ok(None), Err(NO_THREAD)]) {
        assert!(tally[&answer] > ARRAYS, "{answer:?}");
    }
}

#[test]
fn a_faulty_search_is_found() {
    let (mut found, mut offices) = (FAULTS.map(|_| 0), 0);
    try_offices(FAULTY_LISTS, |office| {
        for (fault, found) in FAULTS.into_iter().zip(&mut found) {
            let faulty = Faulty {
                guard: &office.reference,
                history: &office.history,
                fault,
            };
            let difference = difference(office, |thread, key| faulty.find_key(thread, key));
            *found += usize::from(difference.is_some());
        }
        offices += 1;
    });
    for (fault, found) in FAULTS.into_iter().zip(found) {
        println!("{fault:?}: after {found} of {offices} lists");
        assert!(found > FAULTY_LISTS / 4, "{fault:?}");
    }
}
