//! The journals that are replayed, each of the most bytes that a file has.

use reference::guard::{Answer, Guard};
use reference::journal::{self, HEAD_BYTES, RECORD_HEAD_BYTES, Record};
use reference::limits::{MAX_JOURNAL_BYTES, MAX_TEXT_BYTES};
use testing::calls::{Caller, WORLDS, call, lock};
use testing::random::Random;
use testing::shapes::texts;

/// A journal, and how many of its records are accepted.
pub struct Journal {
    pub name: &'static str,
    pub bytes: Vec<u8>,
    pub records: usize,
    pub accepted: usize,
}

/// The most bytes of a record.
const LONGEST_RECORD: usize = RECORD_HEAD_BYTES + MAX_TEXT_BYTES;

/// A journal in the making, and the state that its records lead to.
#[derive(Default)]
struct Draft {
    guard: Guard,
    records: Vec<Record>,
    accepted: usize,
    size: usize,
}

impl Draft {
    fn answer(guard: &mut Guard, record: &Record) -> Answer {
        guard.call(record.letter, record.a, record.b, record.c, &record.text)
    }

    fn push(&mut self, record: Record) -> Answer {
        let answer = Draft::answer(&mut self.guard, &record);
        self.accepted += usize::from(answer.is_ok());
        self.size += record.size();
        self.records.push(record);
        answer
    }

    /// Whether the record would be accepted.
    fn takes(&self, record: &Record) -> bool {
        Draft::answer(&mut self.guard.clone(), record).is_ok()
    }

    fn left(&self) -> usize {
        MAX_JOURNAL_BYTES - HEAD_BYTES - self.size
    }

    /// Whether a record of any size leaves room for the last.
    fn has_room(&self) -> bool {
        self.left() > 2 * LONGEST_RECORD
    }

    /// Fills the file to its last byte: returns, and a lock with a text of as
    /// many bytes as are left.
    fn finish(mut self, name: &'static str) -> Journal {
        while self.left() > LONGEST_RECORD {
            let _ = self.push(call(b'R', 0, 0, 0));
        }
        let nots = "!".repeat(self.left() - RECORD_HEAD_BYTES - 2);
        let _ = self.push(lock(0, 0, 1, format!("{nots}U0").as_bytes()));
        let bytes = journal::write(&self.records);
        assert_eq!(bytes.len(), MAX_JOURNAL_BYTES);
        Journal {
            name,
            bytes,
            records: self.records.len(),
            accepted: self.accepted,
        }
    }
}

/// Sixteen threads that call, return, read and write; one call in twenty may be
/// refused.
fn routes() -> Journal {
    const THREADS: usize = 16;
    let mut draft = Draft::default();
    let mut opening = vec![call(b'U', 0, 0, 0); 4];
    // Of the four users, each edits by the first of its threads.
    opening.extend((0..THREADS).map(|thread| call(b'S', thread as u16 % 4, 0, 0)));
    opening.extend((0..8).map(|segment| call(b'N', segment % 4, 0, 0)));
    opening.extend((0..4).map(|editor| call(b'N', editor, 1, 0)));
    opening.extend((0..4).map(|editor| call(b'K', editor, 0, 0)));
    opening.extend((0..8).map(|segment| call(b'G', segment % 4, segment, segment % 4)));
    for segment in (0..8).step_by(2) {
        opening.push(lock(segment % 4, segment, 1, b"U0|U1|U2&!R3|U3"));
        let route = format!("S{segment}&!S{}|D{}", segment + 1, segment % 4);
        opening.push(lock((segment + 1) % 4, segment + 1, 1, route.as_bytes()));
    }
    for (editor, text) in [
        (0, "S0&S1"),
        (1, "S2|S3&!S4"),
        (2, "D0&S5|D1"),
        (3, "U1&S6"),
    ] {
        opening.push(lock(editor, 8 + editor, 6, text.as_bytes()));
    }
    opening.push(lock(0, 8, 12, b"S7&U3"));
    for record in opening {
        draft.push(record).expect("the opening is accepted");
    }
    let mut random = Random::new(51);
    while draft.has_room() {
        let thread = random.below(THREADS) as u16;
        let record = match random.below(7) {
            0..2 => call(b'C', thread, random.below(8) as u16, 0),
            2..4 => call(b'R', thread, 0, 0),
            _ => call(
                b'A',
                thread,
                8 + random.below(4) as u16,
                random.pick(&[2, 4]),
            ),
        };
        if draft.takes(&record) || random.one_in(20) {
            let _ = draft.push(record);
        }
    }
    draft.finish("C, R and A, mostly accepted")
}

/// Locks with the longest texts, each dropped again.
fn long_texts() -> Journal {
    let mut draft = Draft::default();
    let mut opening = vec![call(b'U', 0, 0, 0); 8];
    opening.push(call(b'S', 0, 0, 0));
    opening.push(call(b'N', 0, 0, 0));
    opening.extend(vec![call(b'K', 0, 0, 0); 9]);
    for record in opening {
        draft.push(record).expect("the opening is accepted");
    }
    let locks = texts()
        .into_iter()
        .map(|text| lock(0, 0, 1, text.as_bytes()));
    let locks: Vec<Record> = locks
        .filter(|lock| lock.text.len() > 90 && draft.takes(lock))
        .collect();
    for record in locks.iter().cycle() {
        if !draft.has_room() {
            break;
        }
        let number = draft.push(record.clone()).expect("there is room for it");
        draft.push(call(b'D', 0, number, 0)).expect("it stands");
    }
    draft.finish("L with long texts, and D")
}

/// Calls of all letters, with one field in three beside what the call needs.
fn refusals() -> Journal {
    let mut draft = Draft::default();
    let mut random = Random::new(52);
    let world = WORLDS.iter().find(|world| world.name == "fields at random");
    let mut caller = Caller::new(&mut random, world.expect("there is such a world"));
    while draft.has_room() {
        let record = caller.next_call();
        if !journal::fits(&record) {
            continue;
        }
        if let Ok(answer) = draft.push(record.clone()) {
            caller.learn(&record, answer);
        }
    }
    draft.finish("all letters, mostly refused")
}

pub fn all() -> [Journal; 3] {
    [routes(), long_texts(), refusals()]
}
