//! Lock lists: sheets with some locks each, listed for their owner and for a
//! colleague, and one listing for each refusal; played on both guards, and
//! their instructions counted.

use crate::callgrind;
use crate::counting::count_names;
use bench::stage::Stage;
use compare::guard::coded;
use compare::listing::numbers;
use compare::typed::lock_row;
use reference::guard::{Guard, Refusal};
use reference::journal::Record;
use reference::listing::Row;
use reference::operations::WRITE;
use rotundaaloe::raw::LockRow;
use std::hint::black_box;
use testing::calls::{call, lock};

/// A lock list that a user asks for, with so many rows lent, and its outcome.
#[derive(Clone, Copy)]
pub struct Listing {
    user: u16,
    segment: u16,
    lent: usize,
    outcome: Outcome,
}

/// How many rows a listing fills, or its refusal's number.
type Outcome = Result<u16, u32>;

const OWNER: u16 = 0;
const COLLEAGUE: u16 = 1;
const NO_USER: u16 = 2;

/// The owner's thread.
const EDITOR: u16 = 0;

const UNLOCKED: u16 = 0;
const ONE_PRODUCT: u16 = 1;
const EIGHT_LOCKS: u16 = 2;
const EIGHT_PRODUCTS: u16 = 3;
const NO_SEGMENT: u16 = 4;

/// The sheets by their numbers: their locks in words, and the locks' texts.
const SHEETS: [(&str, &[&str]); 4] = [
    ("no locks", &[]),
    ("one lock of one product", &["D0&D1"]),
    ("eight locks of one product", &["D0&D1"; 8]),
    ("one lock of eight products", &["(D0|D1)&(D2|D3|D4|D5)"]),
];

/// Every listing that is counted. Eight rows are enough for any.
pub const LISTINGS: [Listing; 10] = [
    listing(OWNER, UNLOCKED, 8, Ok(0)),
    listing(OWNER, ONE_PRODUCT, 8, Ok(1)),
    listing(COLLEAGUE, ONE_PRODUCT, 8, Ok(1)),
    listing(OWNER, EIGHT_LOCKS, 8, Ok(8)),
    listing(COLLEAGUE, EIGHT_LOCKS, 8, Ok(8)),
    listing(OWNER, EIGHT_PRODUCTS, 8, Ok(8)),
    listing(COLLEAGUE, EIGHT_PRODUCTS, 8, Ok(1)),
    listing(NO_USER, ONE_PRODUCT, 8, Err(1)),
    listing(OWNER, NO_SEGMENT, 8, Err(3)),
    listing(OWNER, EIGHT_LOCKS, 7, Err(19)),
];

const fn listing(user: u16, segment: u16, lent: usize, outcome: Outcome) -> Listing {
    Listing {
        user,
        segment,
        lent,
        outcome,
    }
}

/// Both guards with two users and the sheets. D0 to D5 are made.
fn stage() -> Stage {
    let mut calls = vec![call(b'U', 0, 0, 0); 2];
    calls.push(call(b'S', OWNER, 0, 0));
    calls.extend(vec![call(b'K', EDITOR, 0, 0); 6]);
    for (segment, (_, texts)) in (0..).zip(SHEETS) {
        calls.push(call(b'N', EDITOR, 1, 0));
        calls.extend(locks(segment, texts));
    }
    Stage::after(&calls)
}

fn locks(segment: u16, texts: &[&str]) -> impl Iterator<Item = Record> {
    let texts = texts.iter();
    texts.map(move |text| lock(EDITOR, segment, WRITE, text.as_bytes()))
}

/// The rows that are lent to each guard.
struct Lent {
    proved: Vec<LockRow>,
    reference: Vec<Row>,
}

/// What each guard answers.
struct Answers {
    proved: u32,
    reference: Result<usize, Refusal>,
}

impl Listing {
    /// What is listed, for whom, in how many rows, and the outcome, in words.
    pub fn columns(self) -> [String; 4] {
        let not_handed_out = "not handed out";
        let sheet = SHEETS.get(usize::from(self.segment));
        let sheet = sheet.map_or(not_handed_out, |(locks, _)| *locks);
        let user = match self.user {
            OWNER => "owner",
            COLLEAGUE => "colleague",
            _ => not_handed_out,
        };
        let outcome = match self.outcome {
            Ok(rows) => rows.to_string(),
            Err(refusal) => format!("refused {refusal}"),
        };
        [sheet.into(), user.into(), self.lent.to_string(), outcome]
    }

    /// The name that its counts have.
    pub fn name(self) -> String {
        format!("lock list: {}", self.columns().join(", "))
    }

    fn lent(self) -> Lent {
        Lent {
            proved: vec![LockRow::default(); self.lent],
            reference: vec![Row::default(); self.lent],
        }
    }

    /// Both have answered as expected, and written the same rows.
    fn assert_told(self, answers: &Answers, lent: &Lent) {
        let expected = match self.outcome {
            Ok(rows) => u32::from(rows),
            Err(refusal) => refusal * 65_536,
        };
        let reference = coded(answers.reference.map(|rows| rows as u16));
        let name = self.name();
        assert_eq!([answers.proved, reference], [expected; 2], "{name}");
        let rows = lent.reference.iter().map(|row| numbers(&lock_row(row)));
        assert_eq!(lent.proved, rows.collect::<Vec<LockRow>>(), "{name}");
    }

    /// Asks both guards. Nothing is counted.
    pub fn tried(self) {
        let Stage { proved, reference } = stage();
        let mut lent = self.lent();
        let answers = Answers {
            proved: proved.list_locks(self.user, self.segment, &mut lent.proved),
            reference: reference.list(self.user, self.segment, &mut lent.reference),
        };
        self.assert_told(&answers, &lent);
    }

    /// Has the instructions of each guard counted, as those of calls are.
    pub fn count(self) {
        type List = fn(&Guard, u16, u16, &mut [Row]) -> Result<usize, Refusal>;
        let list: List = black_box(Guard::list);
        let [proved_name, reference_name] = count_names(&self.name());
        let Stage { proved, reference } = &black_box(stage());
        let [user, segment] = black_box([self.user, self.segment]);
        let mut lent = self.lent();
        let rows = black_box(&mut lent.proved[..]);
        let proved = callgrind::count(&proved_name, || proved.list_locks(user, segment, rows));
        let rows = black_box(&mut lent.reference[..]);
        let reference = callgrind::count(&reference_name, || list(reference, user, segment, rows));
        self.assert_told(&Answers { proved, reference }, &lent);
    }
}
