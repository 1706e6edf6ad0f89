//! Journals to replay: the lessons, with the answers that they say, and drawn
//! ones.

use rotundaaloe::limits::MOST_NUMBERS;
use rotundaaloe::{Field, Guard, Journal, Letter, Record};

/// A lesson's calls, and the office program's lines as the lesson says them:
/// `A 0 2 4 -> no 15 0  # why`.
pub fn lesson(text: &str) -> (Journal, String) {
    let mut journal = Journal::new();
    let mut lines = String::new();
    let calls = text
        .lines()
        .filter_map(|line| line.split('#').next()?.split_once("->"));
    for (place, (call, answer)) in calls.enumerate() {
        let words: Vec<&str> = call.split_whitespace().collect();
        let field = |place: usize| {
            let word = words.get(place).unwrap_or(&"0");
            word.parse().expect("a number")
        };
        let record = Record {
            letter: words[0].as_bytes()[0],
            a: field(1),
            b: field(2),
            c: field(3),
            text: words.get(4).unwrap_or(&"").as_bytes(),
        };
        journal.append(record).expect("a lesson is short");
        lines.push_str(&format!("{place} {} {}\n", words[0], answer.trim()));
    }
    (journal, lines)
}

const TEXTS: [&str; 12] = [
    "U0",
    "U0|U1|U2|U3",
    "S0",
    "S0&S1",
    "S1|D0",
    "!D0",
    "!(D0|D1)&U0",
    "R0|S2",
    "(D0|D1)&(D2|D3)",
    "D0&!D0",
    "D01",
    "U0|U1|U2|U3|S0|S1|S2|D0|D1",
];

/// Execute, read, write, both, two that deny, and two that no segment takes.
const OPERATIONS: [u16; 8] = [1, 2, 4, 6, 9, 12, 5, 16];

struct Draw {
    seed: u64,
    threads: u16,
    locks: u16,
}

impl Draw {
    /// A number below the bound, and one time in 32 any.
    fn below(&mut self, bound: u16) -> u16 {
        self.seed = self
            .seed
            .wrapping_mul(6_364_136_223_846_793_005)
            .wrapping_add(1);
        let drawn = (self.seed >> 33) as u32;
        match drawn % 32 {
            0 => (drawn >> 8) as u16,
            _ => ((drawn >> 8) % u32::from(bound)) as u16,
        }
    }

    fn one_of<T: Copy>(&mut self, list: &[T]) -> T {
        list[usize::from(self.below(list.len() as u16)) % list.len()]
    }

    /// One of the newest of so many numbers, or the next one.
    fn newest(&mut self, count: u16) -> u16 {
        count.wrapping_sub(self.below(5))
    }

    fn field(&mut self, field: Field) -> u16 {
        match field {
            Field::User => self.below(4),
            Field::Thread => self.newest(self.threads),
            Field::Segment | Field::Key => self.below(6),
            Field::Lock => self.newest(self.locks),
            Field::Kind => self.below(2),
            Field::Operations => self.one_of(&OPERATIONS),
            Field::Operation => self.one_of(&[2, 4, 2, 4, 1]),
        }
    }

    fn record(&mut self) -> Record<'static> {
        let letter = self.one_of(&Letter::ALL);
        let mut fields = [0; 3];
        for (cell, field) in fields.iter_mut().zip(letter.fields()) {
            *cell = self.field(*field);
        }
        let text = self.one_of(&TEXTS);
        let [a, b, c] = fields;
        Record {
            letter: letter.byte(),
            a,
            b,
            c,
            text: if letter.has_text() {
                text.as_bytes()
            } else {
                b""
            },
        }
    }
}

/// A journal of three thousand calls.
pub fn drawn(seed: u64) -> Journal {
    let mut draw = Draw {
        seed,
        threads: 0,
        locks: 0,
    };
    let (mut guard, mut journal) = (Guard::new(), Journal::new());
    for _ in 0..3_000 {
        let record = draw.record();
        let _ = guard.call(record);
        journal.append(record).expect("there is room");
        let left = guard.left();
        draw.threads = (MOST_NUMBERS as u32 - left.threads) as u16;
        draw.locks = (MOST_NUMBERS as u32 - left.locks) as u16;
    }
    journal
}
