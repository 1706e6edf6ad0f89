//! Neighbours in a shared host (document 02, P2), on both guards. Lists that are
//! the same once the C, R and A of threads other than one are struck give the
//! one thread the same answers, and every call that is left the same, but for how
//! many open calls an E of another thread closes. The edits that name a thread are
//! among its calls; those of others are shared, and stay.
//!
//! Seven faulty guards, each with an answer in which a neighbour shows, are found.
//! With `-- --nocapture` it also prints how often calls came to each outcome.

#[path = "guards/faulty.rs"]
mod faulty;

use compare::guard::{Guard, coded, outcome};
use faulty::{FAULTS, Fault, Faulty};
use reference::guard::Answer;
use reference::journal::Record;
use reference::letter::{Field, Letter};
use rotundaaloe::raw::Cells;
use rotundaaloe::view::Thread;
use std::collections::{BTreeMap, BTreeSet};
use testing::calls::{Caller, WORLDS, World, call, outcomes};
use testing::neighbours::{crowd, is_struck, strike};
use testing::random::Random;
use testing::tightness;
use testing::trials::{self, TRIALS};
use testing::withdrawals;

/// Lists of each kind, each with two others that are the same once struck.
const LISTS: usize = 2_000;
/// Fewer are enough for each faulty guard.
const FAULTY_LISTS: usize = 60;
/// The one thread is one that was never started in one of this many.
const NEVER_STARTED: usize = 12;

/// Records from the empty state, each with its answer as the proved guard gives it.
type Answered = Vec<(Record, u32)>;

fn answered(guard: &mut dyn trials::Guard, list: &[Record]) -> Answered {
    let answer = |record: &Record| {
        let fields = [record.a, record.b, record.c];
        let answer = guard.call(record.letter, fields, &record.text);
        (record.clone(), coded(answer))
    };
    list.iter().map(answer).collect()
}

fn records(list: &Answered) -> Vec<Record> {
    list.iter().map(|(record, _)| record.clone()).collect()
}

/// The letters whose field a names a thread.
const OF_A_THREAD: &[u8] = b"ENKGTLDCRA";

/// Whether it is one of the thread's own calls.
fn is_own(one: u16, record: &Record) -> bool {
    OF_A_THREAD.contains(&record.letter) && record.a == one
}

/// The answers to the one thread's own calls.
fn own(one: u16, list: &Answered) -> Vec<u32> {
    let own = list.iter().filter(|(record, _)| is_own(one, record));
    own.map(|(_, answer)| *answer).collect()
}

/// The records that are left once a list is struck, with their answers.
fn left(one: u16, list: &Answered) -> impl Iterator<Item = &(Record, u32)> {
    let is_left = move |(record, _): &&(Record, u32)| !is_struck(one, record);
    list.iter().filter(is_left)
}

/// What must be equal of an answer: all but how many open calls an E of another
/// thread closes.
fn settled(one: u16, (record, answer): &(Record, u32)) -> Option<u32> {
    let ends_another = record.letter == b'E' && record.a != one && outcome(*answer) == 0;
    (!ends_another).then_some(*answer)
}

/// The first call that is left whose answer is another in the other list.
fn disturbed<'a>(one: u16, first: &'a Answered, other: &Answered) -> Option<&'a Record> {
    let mut pairs = left(one, first).zip(left(one, other));
    let found = pairs.find(|(call, again)| settled(one, call) != settled(one, again));
    found.map(|((record, _), _)| record)
}

/// The one thread's answers must be the same in both lists, and those of every
/// other call that is left.
#[track_caller]
fn assert_same(one: u16, first: &Answered, other: &Answered) {
    assert_eq!(own(one, first), own(one, other), "{one}");
    assert_eq!(disturbed(one, first, other), None, "{one}");
}

/// A list at random.
fn drawn(random: &mut Random, world: &World) -> Answered {
    let mut guard = reference::guard::Guard::new();
    let mut caller = Caller::new(random, world);
    let mut list = Vec::new();
    for _ in 0..caller.length() {
        let record = caller.next_call();
        let answer = guard.call(record.letter, record.a, record.b, record.c, &record.text);
        if let Ok(answer) = answer {
            caller.learn(&record, answer);
        }
        list.push((record, coded(answer)));
    }
    list
}

/// Every letter of a thread is among them, and no other.
#[test]
fn letters_of_a_thread() {
    let names_thread = |letter: &Letter| letter.fields().first() == Some(&Field::Thread);
    let letters = Letter::ALL.into_iter().filter(names_thread);
    assert!(letters.map(Letter::byte).eq(OF_A_THREAD.iter().copied()));
}

/// The accepted calls of a letter.
fn accepted(list: &Answered, letter: u8) -> impl Iterator<Item = &(Record, u32)> {
    let is_accepted =
        move |(record, answer): &&(Record, u32)| record.letter == letter && outcome(*answer) == 0;
    list.iter().filter(is_accepted)
}

/// The thread of every accepted C.
fn callers(list: &Answered) -> Vec<u16> {
    accepted(list, b'C').map(|(record, _)| record.a).collect()
}

/// A thread that called, and the more likely the more it called; or a number that
/// no thread has.
fn chosen(random: &mut Random, list: &Answered) -> u16 {
    let callers = callers(list);
    if callers.is_empty() || random.one_in(NEVER_STARTED) {
        return accepted(list, b'S').count() as u16;
    }
    random.pick(&callers)
}

/// The lists, by the one thread whose answers must be the same in all.
struct Neighbours {
    one: u16,
    lists: [Vec<Record>; 3],
}

impl Neighbours {
    fn draw(random: &mut Random, world: &World) -> Neighbours {
        let list = drawn(random, world);
        Neighbours::of(random, world, list)
    }

    /// What is called in place of what is struck is as in this world.
    fn of(random: &mut Random, world: &World, list: Answered) -> Neighbours {
        let one = chosen(random, &list);
        let list = records(&list);
        let left = strike(one, &list);
        let crowded = crowd(random, world, one, &list);
        assert_eq!(strike(one, &crowded), left);
        assert_eq!(strike(one, &left), left);
        Neighbours {
            one,
            lists: [left, list, crowded],
        }
    }

    /// What a guard answers to each list.
    fn answers<G: trials::Guard>(&self, new: impl Fn() -> G) -> [(Answered, G); 3] {
        self.lists.each_ref().map(|list| {
            let mut guard = new();
            (answered(&mut guard, list), guard)
        })
    }
}

/// Neighbours of every kind, so many of each, as many among whom keys are taken from
/// open calls, and as many for whom several locks open at once.
fn try_neighbours(lists: usize, mut attempt: impl FnMut(&Neighbours)) {
    for (world, seed) in WORLDS.iter().zip(60..) {
        let mut random = Random::new(seed);
        let to_the_limit = world.name == "everything to its limit";
        for _ in 0..if to_the_limit { lists / 20 } else { lists } {
            attempt(&Neighbours::draw(&mut random, world));
        }
    }
    let draws: [fn(&mut Random) -> Vec<Record>; 2] = [withdrawals::list, tightness::list];
    for (draw, seed) in draws.into_iter().zip(65..) {
        let mut random = Random::new(seed);
        for _ in 0..lists {
            let list = draw(&mut random);
            let list = answered(&mut Both::default(), &list);
            attempt(&Neighbours::of(&mut random, &WORLDS[0], list));
        }
    }
}

/// Both guards, which must give the same answer.
#[derive(Default)]
struct Both {
    reference: reference::guard::Guard,
    proved: Guard,
}

impl trials::Guard for Both {
    fn call(&mut self, letter: u8, [a, b, c]: [u16; 3], text: &[u8]) -> Answer {
        let answer = self.reference.call(letter, a, b, c, text);
        let given = self.proved.call(letter, a, b, c, text);
        assert_eq!(given, coded(answer), "{letter} {a} {b} {c} {text:?}");
        answer
    }
}

/// What stands in a guard's state beside the open calls of other threads.
#[derive(PartialEq)]
struct Beside {
    /// All arrays but that of the threads.
    cells: Box<Cells>,
    threads: Vec<Thread>,
}

impl Beside {
    fn of(guard: &Guard, one: u16) -> Beside {
        let mut cells = Box::new(guard.cells().clone());
        let mut threads = rotundaaloe::Guard::from_cells(cells.clone()).threads();
        for thread in threads.iter_mut().filter(|thread| thread.number.0 != one) {
            thread.frames.clear();
        }
        cells.threads = Cells::EMPTY.threads;
        Beside { cells, threads }
    }
}

/// How often a letter came to an outcome: a refusal's number, or 0.
type Outcomes = BTreeMap<(char, u32), usize>;

/// What the lists were about.
#[derive(Debug, Default)]
struct Tally {
    /// Of the one thread's calls.
    own: Outcomes,
    /// Of the calls that are struck.
    struck: Outcomes,
    never_started: usize,
    /// E of other threads that answer another number in another list.
    ended_otherwise: usize,
    /// Lists that lead to another state, by other threads' open calls.
    other_states: usize,
}

impl Tally {
    fn add(&mut self, one: u16, answers: &[(Answered, Both); 3]) {
        let [(first, guard), others @ ..] = answers;
        let started = accepted(first, b'S').any(|(_, thread)| *thread == u32::from(one));
        self.never_started += usize::from(!started);
        for (list, after) in others {
            self.add_outcomes(one, list);
            let pairs = left(one, first).zip(left(one, list));
            self.ended_otherwise += pairs.filter(|(call, again)| call != again).count();
            self.other_states += usize::from(guard.proved.cells() != after.proved.cells());
        }
    }

    fn add_outcomes(&mut self, one: u16, list: &Answered) {
        for (record, answer) in list {
            let tally = match record {
                _ if is_struck(one, record) => &mut self.struck,
                _ if is_own(one, record) => &mut self.own,
                _ => continue,
            };
            let outcome = (char::from(record.letter), outcome(*answer));
            *tally.entry(outcome).or_default() += 1;
        }
    }

    /// Every outcome that there can be must have come often, to the one thread and
    /// to its neighbours.
    fn assert_complete(&self) {
        assert_often(&self.own, OF_A_THREAD, LISTS / 200);
        assert_often(&self.struck, b"CRA", LISTS / 2);
        for letter in ['C', 'R', 'A'] {
            let accepted = self.struck[&(letter, 0)];
            assert!(accepted > 100 * LISTS, "{letter}: {accepted}");
        }
        assert!(self.never_started > LISTS / 10);
        assert!(self.ended_otherwise > 10 * LISTS);
        assert!(self.other_states > LISTS);
    }
}

#[track_caller]
fn assert_often(tally: &Outcomes, letters: &[u8], least: usize) {
    for letter in letters {
        for number in outcomes(*letter) {
            let letter = char::from(*letter);
            let count = tally.get(&(letter, *number)).copied().unwrap_or(0);
            assert!(count >= least, "{letter} came to {number} {count} times");
        }
    }
}

/// Both guards, with what they are asked and answer.
#[derive(Default)]
struct Told {
    guards: Both,
    list: Answered,
}

impl trials::Guard for Told {
    fn call(&mut self, letter: u8, [a, b, c]: [u16; 3], text: &[u8]) -> Answer {
        let answer = self.guards.call(letter, [a, b, c], text);
        let text = text.to_vec();
        let record = Record {
            text,
            ..call(letter, a, b, c)
        };
        self.list.push((record, coded(answer)));
        answer
    }
}

/// Has whoever calls in an example called without neighbours too, and answers how
/// many of these there were.
fn strike_neighbours(told: &Answered) -> usize {
    let list = records(told);
    let mut struck = 0;
    for one in BTreeSet::from_iter(callers(told)) {
        let left = strike(one, &list);
        let alone = answered(&mut Both::default(), &left);
        assert_same(one, told, &alone);
        struck += list.len() - left.len();
    }
    struck
}

/// Their answers are by hand, and the same without a thread's neighbours.
#[test]
fn worked_examples() {
    let mut with_neighbours = 0;
    for (name, trial) in TRIALS {
        let mut told = Told::default();
        trial(&mut told);
        let struck = strike_neighbours(&told.list);
        println!("{name}: {struck}");
        with_neighbours += usize::from(struck > 0);
    }
    assert!(with_neighbours > 3, "{with_neighbours}");
}

#[test]
fn neighbours_are_not_disturbed() {
    let mut tally = Tally::default();
    try_neighbours(LISTS, |neighbours| {
        let one = neighbours.one;
        let answers = neighbours.answers(Both::default);
        let [(first, guard), others @ ..] = &answers;
        for (other, after) in others {
            assert_same(one, first, other);
            let beside = |guard: &Both| Beside::of(&guard.proved, one);
            assert!(beside(guard) == beside(after), "a cell differs");
        }
        tally.add(one, &answers);
    });
    println!("{tally:?}");
    tally.assert_complete();
}

/// In how many of the neighbours' lists a fault shows: in the answers to the one
/// thread, and to any call that is left.
fn found(fault: Fault) -> (usize, usize) {
    let (mut in_own, mut in_left) = (0, 0);
    try_neighbours(FAULTY_LISTS, |neighbours| {
        let one = neighbours.one;
        let answers = neighbours.answers(|| Faulty::new(fault));
        let [first, others @ ..] = answers.map(|(list, _)| list);
        let otherwise = |other| own(one, other) != own(one, &first);
        in_own += usize::from(others.iter().any(otherwise));
        let is_disturbed = |other| disturbed(one, &first, other).is_some();
        in_left += usize::from(others.iter().any(is_disturbed));
    });
    println!("{fault:?}: {in_own}, {in_left}");
    (in_own, in_left)
}

#[test]
fn a_faulty_guard_is_found() {
    for fault in FAULTS {
        let (in_own, in_left) = found(fault);
        assert!(in_own > FAULTY_LISTS / 4, "{fault:?}");
        assert!(in_left >= in_own, "{fault:?}");
    }
}

/// And one that no thread notices.
#[test]
fn a_fault_in_other_calls_is_found() {
    let (in_own, in_left) = found(Fault::NumbersByOpenCalls);
    assert_eq!(in_own, 0);
    assert!(in_left > FAULTY_LISTS / 4, "{in_left}");
}
