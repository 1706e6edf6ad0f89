//! Lists of calls in which several locks of a segment open at once for a thread, of
//! different lengths and of equal ones (document 02, P6), and in which calls and accesses
//! then ask which of them answers. Locks come and go, and so do the keys that a thread
//! holds.

use crate::calls::{call, lock};
use crate::draft::Draft;
use crate::random::Random;
use reference::history::Verdict;
use reference::journal::Record;
use reference::letter::Letter;
use reference::limits::{MAX_LITERALS, MAX_SEGMENT_PRODUCTS, MAX_TEXT_BYTES};
use reference::operations::{DENY, EXECUTE, READ, WRITE};
use reference::{Key, Kind};

/// The least and the most turns of a list, each with a few questions after it.
const TURNS: (usize, usize) = (30, 80);
/// The least and the most questions after a turn.
const QUESTIONS: (usize, usize) = (2, 4);
/// One list in this many has a deep stack: nobody returns, and one thread calls often
/// at once.
const DEEP_SHARE: usize = 5;
/// The most threads that are live before one ends.
const MOST_THREADS: usize = 4;
/// With so many products a segment has hardly room for a lock more.
const ROOM: usize = MAX_SEGMENT_PRODUCTS - 1;
/// One lock in this many denies.
const DENY_SHARE: usize = 6;
/// One product in this many has a key the wrong way, so that it doesn't open.
const CLOSED_SHARE: usize = 4;

/// A list from the empty state.
pub fn list(random: &mut Random) -> Vec<Record> {
    let deep = random.one_in(DEEP_SHARE);
    let turns = random.between(TURNS.0, TURNS.1);
    let mut office = Office::open(random);
    for _ in 0..turns {
        office.take_turn(deep);
        office.ask(deep);
    }
    office.draft.into_list()
}

/// So many lists, each from the empty state.
pub fn lists(seed: u64, count: usize) -> impl ExactSizeIterator<Item = Vec<Record>> {
    let mut random = Random::new(seed);
    (0..count).map(move |_| list(&mut random))
}

/// A list as far as it is made, and what there is to name. User 0 owns all of it.
struct Office<'a> {
    draft: Draft<'a>,
    /// The keys that may come into a list. The one after them never does.
    keys: u16,
    code: Vec<u16>,
    sheets: Vec<u16>,
    /// What the last turn was about.
    touched: u16,
}

impl<'a> Office<'a> {
    /// Everyone may call a code segment by a lock of one key, and it hands over a few.
    fn open(random: &'a mut Random) -> Office<'a> {
        let users = random.between(1, 2);
        let threads = random.between(users, MOST_THREADS);
        let keys = random.between(2, 5) as u16;
        let (code, sheets) = (random.between(2, 3), random.between(1, 2));
        let mut draft = Draft::new(random);
        for _ in 0..users {
            draft.made(call(Letter::NewUser, 0, 0, 0));
        }
        for thread in 0..threads {
            draft.made(call(Letter::StartThread, (thread % users) as u16, 0, 0));
        }
        for _ in 0..=keys {
            draft.made(call(Letter::NewKey, 0, 0, 0));
        }
        let for_all = [(EXECUTE, format!("!D{keys}"))];
        let mut office = Office {
            keys,
            code: (0..code).map(|_| draft.segment(0, 0, &for_all)).collect(),
            sheets: (0..sheets).map(|_| draft.segment(0, 1, &[])).collect(),
            touched: 0,
            draft,
        };
        for _ in 0..code + threads {
            office.give_or_take();
            office.draft.call_segment(&office.code);
            office.add_lock();
            office.add_lock();
        }
        office
    }

    fn take_turn(&mut self, deep: bool) {
        match self.draft.random.below(20) {
            0..9 => self.add_lock(),
            9..12 => self.drop_lock(),
            12..14 => self.give_or_take(),
            14..16 if deep => self.draft.descend(&self.code),
            14..16 => self.draft.call_segment(&self.code),
            16..18 if !deep => self.draft.return_call(),
            18 => _ = self.draft.come_or_go(MOST_THREADS),
            _ => {}
        }
    }

    /// Any of them, or what the last turn was about.
    fn segment(&mut self) -> u16 {
        match self.draft.random.below(4) {
            0 => self.draft.random.pick(&self.code),
            1 => self.draft.random.pick(&self.sheets),
            _ => self.touched,
        }
    }

    /// A lock that mostly opens for some thread. One that has no room pushes another
    /// out, but for a few.
    fn add_lock(&mut self) {
        let segment = match self.draft.random.below(2) {
            0 => self.draft.random.pick(&self.code),
            _ => self.draft.random.pick(&self.sheets),
        };
        self.touched = segment;
        let operations = match self.draft.told_of(segment).sheet {
            true => self.draft.random.pick(&[READ, WRITE, READ | WRITE]),
            false => EXECUTE,
        };
        let deny = match self.draft.random.one_in(DENY_SHARE) {
            true => DENY,
            false => 0,
        };
        let thread = self.draft.thread();
        let text = self.text(thread);
        let editor = self.draft.editor_of(segment);
        let record = lock(editor, segment, operations | deny, text.as_bytes());
        if self.products_on(segment) >= ROOM && !self.draft.random.one_in(8) {
            self.drop_from(segment);
        }
        let _ = self.draft.call(record);
    }

    fn locks_on(&self, segment: u16) -> Vec<u16> {
        let standing = self.draft.history.standing();
        let of_segment = standing.filter(|(_, lock)| lock.segment == segment);
        of_segment.map(|(number, _)| number).collect()
    }

    fn products_on(&self, segment: u16) -> usize {
        let standing = self.draft.history.standing();
        let of_segment = standing.filter(|(_, lock)| lock.segment == segment);
        let products = of_segment.map(|(_, lock)| lock.formula.sum_of_products());
        products.map(|sum| sum.expect("it fits").len()).sum()
    }

    /// Mostly what answers some thread now, a deny lock among that.
    fn drop_lock(&mut self) {
        let segment = self.segment();
        self.touched = segment;
        let record = self.question(segment);
        match self.draft.history.verdict(&record) {
            Some(Verdict::Granted(lock) | Verdict::Denied(lock))
                if !self.draft.random.one_in(3) =>
            {
                self.drop_one(segment, lock);
            }
            _ => self.drop_from(segment),
        }
    }

    fn drop_from(&mut self, segment: u16) {
        let locks = self.locks_on(segment);
        if !locks.is_empty() {
            let lock = self.draft.random.pick(&locks);
            self.drop_one(segment, lock);
        }
    }

    fn drop_one(&mut self, segment: u16, lock: u16) {
        let editor = self.draft.editor_of(segment);
        let _ = self.draft.call(call(Letter::DropLock, editor, lock, 0));
    }

    fn give_or_take(&mut self) {
        let segment = self.draft.random.pick(&self.code);
        let number = self.draft.random.below(usize::from(self.keys)) as u16;
        let kind = Kind::Defined;
        let list = &self.draft.told_of(segment).list;
        let letter = match list.contains(&Key { kind, number }) {
            true => Letter::TakeKey,
            false => Letter::GiveKey,
        };
        let editor = self.draft.editor_of(segment);
        let _ = self.draft.call(call(letter, editor, segment, number));
    }

    /// A C or an A on the segment.
    fn question(&mut self, segment: u16) -> Record {
        let thread = self.draft.thread();
        match self.draft.told_of(segment).sheet {
            true => {
                let operation = self.draft.random.pick(&[READ, WRITE]);
                call(Letter::Access, thread, segment, operation)
            }
            false => call(Letter::CallSegment, thread, segment, 0),
        }
    }

    /// A call is mostly left at once, but for a deep stack.
    fn ask(&mut self, deep: bool) {
        for _ in 0..self.draft.random.between(QUESTIONS.0, QUESTIONS.1) {
            let segment = self.segment();
            let record = self.question(segment);
            let (thread, is_call) = (record.a, record.c == 0);
            let answer = self.draft.call(record);
            if is_call && answer.is_ok() && !deep && !self.draft.random.one_in(8) {
                self.draft.made(call(Letter::ReturnCall, thread, 0, 0));
            }
        }
    }

    /// A text of one to three products for what the thread holds.
    fn text(&mut self, thread: u16) -> String {
        let count = self.draft.random.pick(&[1, 1, 1, 2, 2, 3]);
        let mut products: Vec<Vec<Signed>> = Vec::new();
        for _ in 0..count {
            let product = self.product(thread);
            // `D0|D0&D1`, or the other way round.
            if self.draft.random.one_in(5) {
                let part = self.draft.random.between(1, product.len());
                products.push(product[..part].to_vec());
            }
            products.push(product);
            if self.draft.random.one_in(4) {
                products.reverse();
            }
        }
        let texts = products.iter().map(|product| self.spelled(product));
        let mut texts: Vec<String> = texts.collect();
        if texts.len() == 2 && self.draft.random.one_in(5) {
            // Both at once, in one product.
            return format!("({})&({})", texts[0], texts[1]);
        }
        while texts.join("|").len() > MAX_TEXT_BYTES {
            texts.pop();
        }
        texts.join("|")
    }

    /// One to six different keys, plain if the thread holds them, and else barred; now
    /// and then one is the other way.
    fn product(&mut self, thread: u16) -> Vec<Signed> {
        let held = self.draft.history.key_set(thread).expect("it is live");
        let issued = self.draft.history.issued();
        let of_kind = |kind| (0..issued.count(kind) as u16).map(move |number| Key { kind, number });
        let all = Kind::ALL.into_iter().flat_map(of_kind);
        let (mut plain, mut barred): (Vec<Key>, Vec<Key>) = all.partition(|key| held.contains(key));
        let mut product: Vec<Signed> = Vec::new();
        for _ in 0..self.draft.random.between(1, MAX_LITERALS) {
            let from = match self.draft.random.below(5) {
                0 | 1 if !barred.is_empty() => &mut barred,
                _ if !plain.is_empty() => &mut plain,
                _ => break,
            };
            let key = from.swap_remove(self.draft.random.below(from.len()));
            product.push((key, !held.contains(&key)));
        }
        if self.draft.random.one_in(CLOSED_SHARE) {
            let (_, is_barred) = &mut product[0];
            *is_barred = !*is_barred;
        }
        product
    }

    /// A product as it is, or as what it is the opposite of.
    fn spelled(&mut self, product: &[Signed]) -> String {
        let (is_turned, sign) = match self.draft.random.one_in(4) {
            true => (true, "|"),
            false => (false, "&"),
        };
        let keys = product.iter().map(|(key, is_barred)| {
            let not = if *is_barred != is_turned { "!" } else { "" };
            format!("{not}{}{}", char::from(key.kind.letter()), key.number)
        });
        let keys = keys.collect::<Vec<String>>().join(sign);
        match is_turned {
            true => format!("!({keys})"),
            false => keys,
        }
    }
}

/// A key, and whether it is barred.
type Signed = (Key, bool);
