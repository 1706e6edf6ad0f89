//! The proved guard on arrays that no list of calls leads to. Whatever numbers
//! are in them, a call comes back, with an outcome that its letter can have; a
//! refusal changes no cell; an accepted call changes nothing but what it is
//! about, and a T each frame of its segment as it must; and C, R and A are the
//! same by the entry and by their own functions.
//!
//! With `-- --nocapture` it also prints how often each letter came to each
//! outcome, and how many frames lost a key.

use super::ACCESSES;
use super::filling::{EDGES, FILLINGS, Filling};
use super::frames::{FRAMES, LIVE, code, depth, withdraw};
use super::tally::Tally;
use compare::guard::{Cells, Guard, Own, outcome};
use reference::call::Call;
use reference::journal::Record;
use reference::letter::{Field, Letter};
use reference::limits::{MAX_LIVE_THREADS, MAX_SEGMENT_PRODUCTS, MAX_SEGMENTS};
use testing::calls::{Caller, WORLDS};
use testing::random::Random;

const ARRAYS: usize = 12_000;
const CALLS_EACH: usize = 100;

/// Has the guard come from the empty state to one that the caller knows.
fn make_calls(guard: &mut Guard, caller: &mut Caller, calls: usize) {
    for _ in 0..calls {
        let record = caller.next_call();
        let answer = guard.call(record.letter, record.a, record.b, record.c, &record.text);
        if outcome(answer) == 0 {
            caller.learn(&record, answer as u16);
        }
    }
}

/// Has a call name numbers that are in the cells, or at the edges.
fn aim(random: &mut Random, record: &mut Record, cells: &Cells) {
    let Some(letter) = Letter::of(record.letter) else {
        return;
    };
    let mut number = |right: u16| match random.below(6) {
        0 => cells.threads[random.below(MAX_LIVE_THREADS)][0][random.below(3)],
        1 => {
            let locks = cells.locks[random.below(MAX_SEGMENTS)];
            (locks[random.below(MAX_SEGMENT_PRODUCTS)][0] / 65_536) as u16
        }
        2 => random.below(MAX_SEGMENTS) as u16,
        3 => random.pick(&EDGES) as u16,
        _ => right,
    };
    let values = [&mut record.a, &mut record.b, &mut record.c];
    for (value, field) in values.into_iter().zip(letter.fields()) {
        if field.is_handed_out() {
            *value = number(*value);
        }
    }
    let is_of_a_segment = letter.is_edit() && letter.fields().contains(&Field::Segment);
    if is_of_a_segment && !random.one_in(4) {
        // A segment has one owner among 65,536 numbers, and a thread one user.
        let [thread, user, ..] = cells.threads[random.below(MAX_LIVE_THREADS)][0];
        record.a = thread;
        let segments = 0..MAX_SEGMENTS as u16;
        let owner = |segment: u16| cells.segments[usize::from(segment)][0][0];
        let owned: Vec<u16> = segments.filter(|segment| owner(*segment) == user).collect();
        if !owned.is_empty() {
            record.b = random.pick(&owned);
        }
    }
    if letter == Letter::TakeKey && !random.one_in(4) {
        // A list has seven keys among 65,536 numbers.
        let list = cells.segments.get(usize::from(record.b)).map(|of| of[1]);
        let cell = list.map_or(0, |list| random.pick(&list));
        record.c = cell.wrapping_sub(code(0));
    }
}

/// The places where two arrays differ.
fn differences<T: PartialEq>(before: &[T], after: &[T]) -> Vec<usize> {
    let places = 0..before.len();
    places.filter(|n| before[*n] != after[*n]).collect()
}

/// Where an array may change.
#[derive(Clone, Copy)]
enum Places {
    Nowhere,
    Only(usize),
    /// At one place, whichever it is.
    Anywhere,
}

impl Places {
    fn include(self, changed: &[usize]) -> bool {
        match self {
            Places::Nowhere => changed.is_empty(),
            Places::Only(only) => changed.iter().all(|place| *place == only),
            Places::Anywhere => changed.len() <= 1,
        }
    }
}

/// What an accepted call may change.
struct Confines {
    registry: bool,
    makers: Places,
    segments: Places,
    locks: Places,
    threads: Places,
}

const NOTHING: Confines = Confines {
    registry: false,
    makers: Places::Nowhere,
    segments: Places::Nowhere,
    locks: Places::Nowhere,
    threads: Places::Nowhere,
};

const REGISTRY: Confines = Confines {
    registry: true,
    ..NOTHING
};

fn confines(call: Call, answer: u16) -> Confines {
    let at = |number| Places::Only(usize::from(number));
    let new = at(answer);
    match call {
        Call::NewUser => REGISTRY,
        Call::StartThread { .. } => Confines {
            threads: Places::Anywhere,
            ..REGISTRY
        },
        Call::EndThread { .. } | Call::CallSegment { .. } | Call::ReturnCall { .. } => Confines {
            threads: Places::Anywhere,
            ..NOTHING
        },
        Call::NewSegment { .. } => Confines {
            segments: new,
            locks: new,
            ..REGISTRY
        },
        Call::NewKey { .. } => Confines {
            makers: new,
            ..REGISTRY
        },
        // The frames that a T changes are compared by themselves.
        Call::GiveKey { segment, .. } | Call::TakeKey { segment, .. } => Confines {
            segments: at(segment),
            ..NOTHING
        },
        Call::AddLock { segment, .. } => Confines {
            locks: at(segment),
            ..REGISTRY
        },
        Call::DropLock { .. } => Confines {
            locks: Places::Anywhere,
            ..NOTHING
        },
        Call::Access { .. } => NOTHING,
    }
}

/// How many frames have lost a key, of live threads and of others, and of some with a
/// count of frames beyond the most.
#[derive(Debug, Default)]
struct Withdrawn {
    live: usize,
    dead: usize,
    beyond: usize,
}

impl Withdrawn {
    /// Takes the key out of the frames of the cells, as a T must.
    fn withdraw(&mut self, cells: &mut Cells, segment: u16, key: u16) {
        let before = cells.threads;
        withdraw(&mut cells.threads, segment, key);
        for (before, after) in before.iter().zip(&cells.threads) {
            let changed = differences(before, after).len();
            match before[0][LIVE] {
                0 => self.dead += changed,
                _ => self.live += changed,
            }
            if usize::from(before[0][FRAMES]) > depth(before) {
                self.beyond += changed;
            }
        }
    }

    fn add(&mut self, more: &Withdrawn) {
        self.live += more.live;
        self.dead += more.dead;
        self.beyond += more.beyond;
    }

    fn assert_often(&self, least: usize) {
        let Withdrawn { live, dead, beyond } = *self;
        for count in [live, dead, beyond] {
            assert!(count >= least, "{self:?}");
        }
    }
}

/// An accepted call may change this much and no more. What a T must change is changed
/// in the cells before it, so that they are to be the same.
fn assert_confined(record: &Record, answer: u16, before: &Cells, after: &Cells) -> Withdrawn {
    let call = Call::of(record).expect("an accepted call is well formed");
    let may = confines(call, answer);
    let (mut before, mut withdrawn) = (before.clone(), Withdrawn::default());
    if let Call::TakeKey { segment, key, .. } = call {
        withdrawn.withdraw(&mut before, segment, key);
    }
    let confined = (may.registry || before.registry == after.registry)
        && may
            .makers
            .include(&differences(&before.makers, &after.makers))
        && may
            .segments
            .include(&differences(&before.segments, &after.segments))
        && may.locks.include(&differences(&before.locks, &after.locks))
        && may
            .threads
            .include(&differences(&before.threads, &after.threads));
    assert!(
        confined,
        "a cell is another than it must be after {record:?}"
    );
    withdrawn
}

/// One call on arrays of any numbers. Answers the outcome.
fn tried(guard: &mut Guard, record: &Record, withdrawn: &mut Withdrawn) -> u32 {
    let before = guard.clone();
    let answer = guard.call(record.letter, record.a, record.b, record.c, &record.text);
    match outcome(answer) {
        0 => {
            let lost = assert_confined(record, answer as u16, before.cells(), guard.cells());
            withdrawn.add(&lost);
        }
        14 => assert!(guard.cells() == before.cells(), "{record:?}"),
        refusal => {
            assert_eq!(answer, refusal * 65_536, "the second number on {record:?}");
            assert!(guard.cells() == before.cells(), "{record:?}");
        }
    }
    let mut direct = before;
    let Some(own) = Own::of_record(record) else {
        return outcome(answer);
    };
    let directly = direct.call_own(own);
    assert_eq!(directly, answer, "{record:?} by its own function");
    assert!(
        direct.cells() == guard.cells(),
        "{record:?} by its own function"
    );
    outcome(answer)
}

#[test]
fn any_numbers_in_the_arrays() {
    let mut random = Random::new(31);
    let mut tally = Tally::default();
    let mut withdrawn = Withdrawn::default();
    for turn in 0..ARRAYS {
        let filling = FILLINGS[turn % FILLINGS.len()];
        let world = &WORLDS[random.below(WORLDS.len())];
        let mut callers = Random::new(random.bits());
        let mut guard = Guard::new();
        let mut caller = match filling {
            Filling::Damaged => {
                let mut caller = Caller::new(&mut callers, world);
                make_calls(&mut guard, &mut caller, random.between(20, 300));
                caller
            }
            _ => Caller::of_a_full_state(&mut callers, world),
        };
        let mut cells = Box::new(guard.cells().clone());
        filling.fill(&mut random, &mut cells);
        let mut guard = Guard::with_cells(cells);
        for _ in 0..CALLS_EACH {
            let mut record = caller.next_call();
            if random.one_in(2) {
                aim(&mut random, &mut record, guard.cells());
            }
            let outcome = tried(&mut guard, &record, &mut withdrawn);
            tally.add(record.letter, outcome);
        }
        let before = guard.clone();
        for _ in 0..CALLS_EACH / 10 {
            let thread = guard.cells().threads[random.below(MAX_LIVE_THREADS)][0][0];
            let segment = random.below(MAX_SEGMENTS) as u16;
            for operation in ACCESSES {
                let outcome = outcome(guard.access(thread, segment, operation));
                let possible = [0, 2, 3, 7, 14, 15].contains(&outcome);
                assert!(possible, "an access comes to {outcome}");
            }
        }
        assert!(
            guard.cells() == before.cells(),
            "an access has changed a cell"
        );
    }
    println!("arrays of any numbers: {tally}\n{withdrawn:?}");
    tally.assert_complete(10);
    withdrawn.assert_often(ARRAYS / 100);
}
