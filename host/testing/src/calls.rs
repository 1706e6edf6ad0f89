//! Lists of calls from a repeatable source of numbers, for tests. A caller
//! remembers what was handed out, from the answers that it is told, so that most
//! calls name what is there and the rest just miss it.

mod fields;
mod texts;

use crate::random::Random;
use reference::call::Call;
use reference::guard::{Answer, Guard};
use reference::history::History;
use reference::journal::Record;
use reference::letter::Letter;
use reference::limits::{
    MAX_DEFINED_KEYS, MAX_LIST_KEYS, MAX_LIVE_THREADS, MAX_SEGMENTS, MAX_USERS,
};
use reference::operations::{EXECUTE, READ, WRITE};

/// How often a letter comes in each of the [`WORLDS`], against the others, and
/// the outcomes of its calls that can occur, by refusal number; 0 is accepted.
fn row(letter: Letter) -> ([usize; WORLDS.len()], &'static [u32]) {
    match letter {
        Letter::NewUser => ([1, 0, 0, 6, 1], &[0, 10, 18]),
        Letter::StartThread => ([4, 2, 40, 4, 1], &[0, 1, 10, 18]),
        Letter::EndThread => ([2, 1, 27, 1, 1], &[0, 2, 18]),
        Letter::NewSegment => ([2, 0, 0, 8, 1], &[0, 2, 7, 10, 18]),
        Letter::NewKey => ([3, 1, 0, 34, 1], &[0, 2, 10, 18]),
        Letter::GiveKey => ([8, 5, 1, 26, 1], &[0, 2, 3, 4, 6, 8, 10, 18]),
        Letter::TakeKey => ([5, 4, 1, 3, 1], &[0, 2, 3, 4, 6, 9, 18]),
        Letter::AddLock => ([12, 3, 2, 10, 1], &[0, 2, 3, 6, 7, 10, 11, 12, 13]),
        Letter::DropLock => ([7, 2, 1, 2, 1], &[0, 2, 5, 6, 18]),
        Letter::CallSegment => ([25, 60, 14, 3, 1], &[0, 2, 3, 7, 10, 14, 15, 18]),
        Letter::ReturnCall => ([14, 9, 6, 1, 1], &[0, 2, 9, 18]),
        Letter::Access => ([17, 12, 8, 2, 1], &[0, 2, 3, 7, 14, 15, 18]),
    }
}

/// The outcomes that can occur of calls with this byte for a letter.
pub fn outcomes(letter: u8) -> &'static [u32] {
    Letter::of(letter).map_or(&[18], |letter| row(letter).1)
}

/// What kind of list a caller makes.
pub struct World {
    pub name: &'static str,
    /// Its place among [`WORLDS`].
    place: usize,
    /// The least and the most calls of a list.
    length: (usize, usize),
    /// One in this many fields is beside what the call needs.
    stray: usize,
    /// Users, threads, code segments, sheets and defined keys that a list opens
    /// with, at most.
    opening: [usize; 5],
}

pub const WORLDS: [World; 5] = [
    World {
        name: "a few of everything",
        place: 0,
        length: (100, 400),
        stray: 24,
        opening: [3, 5, 4, 2, 4],
    },
    World {
        name: "deep stacks",
        place: 1,
        length: (100, 400),
        stray: 60,
        opening: [2, 3, 3, 1, 6],
    },
    World {
        name: "threads that come and go",
        place: 2,
        length: (400, 3_000),
        stray: 30,
        opening: [3, 8, 3, 2, 3],
    },
    World {
        name: "everything to its limit",
        place: 3,
        length: (1_000, 5_000),
        stray: 40,
        opening: [1, 1, 1, 1, 1],
    },
    World {
        name: "fields at random",
        place: 4,
        length: (20, 300),
        stray: 3,
        opening: [4, 8, 3, 3, 4],
    },
];

impl World {
    /// The letters, each as often as its weight says.
    fn letters(&self) -> Vec<Letter> {
        let repeated = |letter| vec![letter; row(letter).0[self.place]];
        Letter::ALL.into_iter().flat_map(repeated).collect()
    }
}

#[derive(Clone, Copy)]
struct Thread {
    number: u16,
    user: u16,
}

struct Segment {
    owner: u16,
    sheet: bool,
    given: Vec<u16>,
}

#[derive(Clone, Copy)]
struct Lock {
    number: u16,
    segment: u16,
}

/// Makes the calls of one list, each with [`Caller::next_call`], and is told each
/// answer with [`Caller::learn`].
pub struct Caller<'a> {
    random: &'a mut Random,
    world: &'a World,
    /// The letters, each as often as the world has it.
    letters: Vec<Letter>,
    users: usize,
    makers: Vec<u16>,
    segments: Vec<Segment>,
    live: Vec<Thread>,
    ended: Vec<Thread>,
    threads_started: usize,
    standing: Vec<Lock>,
    locks_made: usize,
    /// The calls that a list opens with, the last one first.
    opening: Vec<Record>,
}

pub fn call(letter: impl Into<u8>, a: u16, b: u16, c: u16) -> Record {
    Record {
        letter: letter.into(),
        a,
        b,
        c,
        text: Vec::new(),
    }
}

/// A record of a letter with a value in each field that it names, and this text.
/// The other fields are 0, so it fits, but for the text.
pub fn shaped(letter: Letter, text: Vec<u8>, mut value: impl FnMut() -> u16) -> Record {
    let mut fields = [0; 3];
    for field in &mut fields[..letter.fields().len()] {
        *field = value();
    }
    let [a, b, c] = fields;
    Record {
        text,
        ..call(letter, a, b, c)
    }
}

/// A record with a text of this length, and 0 in every field.
pub fn bare(letter: impl Into<u8>, text_length: usize) -> Record {
    Record {
        text: vec![b'!'; text_length],
        ..call(letter, 0, 0, 0)
    }
}

/// One call on the guard, and the history is told of it.
pub fn told(guard: &mut Guard, history: &mut History, record: &Record) -> Answer {
    let answer = guard.call(record.letter, record.a, record.b, record.c, &record.text);
    history.feed(record, answer.ok());
    answer
}

pub fn lock(thread: u16, segment: u16, operations: u16, text: &[u8]) -> Record {
    Record {
        text: text.to_vec(),
        ..call(Letter::AddLock, thread, segment, operations)
    }
}

impl<'a> Caller<'a> {
    /// A caller for a list from the empty state.
    pub fn new(random: &'a mut Random, world: &'a World) -> Caller<'a> {
        let [users, threads, code, sheets, keys] =
            world.opening.map(|most| random.between(1, most));
        let thread = |n: usize| (n % threads) as u16;
        let segment = |n, kind| Call::NewSegment {
            thread: thread(n),
            kind,
        };
        let mut opening = vec![Call::NewUser; users];
        opening.extend((0..threads).map(|_| Call::StartThread {
            user: random.below(users) as u16,
        }));
        opening.extend((0..code).map(|n| segment(n, 0)));
        opening.extend((0..sheets).map(|n| segment(n, 1)));
        opening.extend((0..keys).map(|n| Call::NewKey { thread: thread(n) }));
        let mut opening: Vec<Record> = opening.into_iter().map(Record::from).collect();
        // Every code segment can be called by someone.
        opening.extend((0..code).map(|n| {
            let text = format!("U{}", random.below(users));
            lock(thread(n), n as u16, EXECUTE, text.as_bytes())
        }));
        // And every sheet is open to those who come by some of them.
        opening.extend((0..sheets).map(|n| {
            let text = format!("S{}", random.below(code));
            lock(thread(n), (code + n) as u16, READ | WRITE, text.as_bytes())
        }));
        opening.reverse();
        Caller {
            random,
            world,
            letters: world.letters(),
            users: 0,
            makers: Vec::new(),
            segments: Vec::new(),
            live: Vec::new(),
            ended: Vec::new(),
            threads_started: 0,
            standing: Vec::new(),
            locks_made: 0,
            opening,
        }
    }

    /// A caller that takes everything to be handed out that can be, for states
    /// that no list leads to.
    pub fn of_a_full_state(random: &'a mut Random, world: &'a World) -> Caller<'a> {
        let user = |n: usize| (n % MAX_USERS) as u16;
        let segments = (0..MAX_SEGMENTS).map(|n| Segment {
            owner: user(n),
            sheet: n % 2 == 1,
            given: (0..MAX_LIST_KEYS as u16 - 1).collect(),
        });
        let threads = (0..MAX_LIVE_THREADS).map(|n| Thread {
            number: n as u16,
            user: user(n),
        });
        let locks = (0..MAX_SEGMENTS as u16).map(|n| Lock {
            number: n,
            segment: n,
        });
        Caller {
            random,
            world,
            letters: world.letters(),
            users: MAX_USERS,
            makers: (0..MAX_DEFINED_KEYS).map(user).collect(),
            segments: segments.collect(),
            live: threads.collect(),
            ended: Vec::new(),
            threads_started: MAX_LIVE_THREADS,
            standing: locks.collect(),
            locks_made: MAX_SEGMENTS,
            opening: Vec::new(),
        }
    }

    /// How many calls the list has.
    pub fn length(&mut self) -> usize {
        let (least, most) = self.world.length;
        self.random.between(least, most)
    }

    /// How many segments there are, as far as the caller was told.
    pub fn segments(&self) -> usize {
        self.segments.len()
    }

    pub fn next_call(&mut self) -> Record {
        if let Some(call) = self.opening.pop() {
            return call;
        }
        let mut record = self.named_call();
        if self.random.one_in(150) {
            self.misshape(&mut record);
        }
        record
    }

    fn named_call(&mut self) -> Record {
        let call = match self.random.pick(&self.letters) {
            Letter::NewUser => Call::NewUser,
            Letter::StartThread => Call::StartThread { user: self.user() },
            Letter::EndThread => Call::EndThread {
                thread: self.thread(),
            },
            Letter::NewSegment => self.new_segment(),
            Letter::NewKey => Call::NewKey {
                thread: self.editor(),
            },
            Letter::GiveKey => self.give_key(),
            Letter::TakeKey => self.take_key(),
            Letter::AddLock => return self.add_lock(),
            Letter::DropLock => self.drop_lock(),
            Letter::CallSegment => Call::CallSegment {
                thread: self.thread(),
                segment: self.segment(Some(false)),
            },
            Letter::ReturnCall => Call::ReturnCall {
                thread: self.thread(),
            },
            Letter::Access => self.access(),
        };
        call.into()
    }

    fn new_segment(&mut self) -> Call<'static> {
        let kind = self.random.below(2) as u16;
        Call::NewSegment {
            thread: self.editor(),
            kind: self.or_stray(kind, 2),
        }
    }

    fn give_key(&mut self) -> Call<'static> {
        let segment = self.segment(None);
        let thread = self.editor_of(segment);
        let key = self.key_of(thread);
        Call::GiveKey {
            thread,
            segment,
            key,
        }
    }

    fn take_key(&mut self) -> Call<'static> {
        let segment = self.segment(None);
        let thread = self.editor_of(segment);
        let key = self.given(segment);
        Call::TakeKey {
            thread,
            segment,
            key,
        }
    }

    fn add_lock(&mut self) -> Record {
        let segment = self.segment(None);
        let operations = self.operations(segment);
        lock(self.editor_of(segment), segment, operations, &self.text())
    }

    fn drop_lock(&mut self) -> Call<'static> {
        let lock = match self.standing.as_slice() {
            [] => Lock {
                number: 0,
                segment: 0,
            },
            standing => self.random.pick(standing),
        };
        let number = self.or_stray(lock.number, self.locks_made);
        Call::DropLock {
            thread: self.editor_of(lock.segment),
            lock: number,
        }
    }

    fn access(&mut self) -> Call<'static> {
        let operation = self.random.pick(&[READ, WRITE]);
        let operation = self.or_stray(operation, 8);
        Call::Access {
            thread: self.thread(),
            segment: self.segment(Some(true)),
            operation,
        }
    }

    /// Takes in the answer of a call that was accepted.
    pub fn learn(&mut self, record: &Record, answer: u16) {
        let Some(call) = Call::of(record) else {
            return;
        };
        match call {
            Call::NewUser => self.users += 1,
            Call::StartThread { user } => {
                let number = answer;
                self.live.push(Thread { number, user });
                self.threads_started += 1;
            }
            Call::EndThread { thread } => {
                let is_ended = |live: &mut Thread| live.number == thread;
                self.ended.extend(self.live.extract_if(.., is_ended));
            }
            Call::NewSegment { thread, kind } => self.segments.push(Segment {
                owner: self.accepted_editor(thread),
                sheet: kind == 1,
                given: Vec::new(),
            }),
            Call::NewKey { thread } => self.makers.push(self.accepted_editor(thread)),
            Call::GiveKey { segment, key, .. } => self.given_mut(segment).push(key),
            Call::TakeKey { segment, key, .. } => {
                self.given_mut(segment).retain(|given| *given != key);
            }
            Call::AddLock { segment, .. } => {
                let number = answer;
                self.standing.push(Lock { number, segment });
                self.locks_made += 1;
            }
            Call::DropLock { lock, .. } => self.standing.retain(|other| other.number != lock),
            Call::CallSegment { .. } | Call::ReturnCall { .. } | Call::Access { .. } => {}
        }
    }

    fn accepted_editor(&self, thread: u16) -> u16 {
        let user = self.user_of(thread);
        user.expect("an accepted edit names a live thread")
    }

    fn given_mut(&mut self, segment: u16) -> &mut Vec<u16> {
        &mut self.segments[usize::from(segment)].given
    }

    /// Gives a call a shape that no call has.
    pub(crate) fn misshape(&mut self, record: &mut Record) {
        match self.random.below(4) {
            0 => record.letter = self.random.bits() as u8,
            1 => record.letter = record.letter.to_ascii_lowercase(),
            2 => {
                let stray = self.random.pick(&[1, 2, 256, 65_535]);
                match self.random.below(3) {
                    0 => record.a = stray,
                    1 => record.b = stray,
                    _ => record.c = stray,
                }
            }
            _ => record.text = self.text(),
        }
    }
}
