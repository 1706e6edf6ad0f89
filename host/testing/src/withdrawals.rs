//! Lists of calls in which keys are given, handed over and taken while calls are
//! open (document 02, P5), and in which accesses then ask for the keys. A few
//! segments, keys and threads, so that they meet.

use crate::calls::call;
use crate::draft::Draft;
use crate::random::Random;
use reference::history::Segment;
use reference::journal::Record;
use reference::letter::Letter;
use reference::operations::{DENY, EXECUTE, READ, WRITE};
use reference::{Key, Kind};

/// A formula that opens for everyone.
const ALL: &str = "U0|!U0";
/// The least and the most turns of a list, each of one call or of a few.
const TURNS: (usize, usize) = (40, 120);
/// One list in this many has a deep stack: nobody returns, and one thread calls often
/// at once.
const DEEP_SHARE: usize = 3;
/// The most threads that are live before one ends.
const MOST_THREADS: usize = 7;
/// Added to a number that is handed out, it is none.
const BEYOND: u16 = 100;

/// A list from the empty state.
pub fn list(random: &mut Random) -> Vec<Record> {
    let deep = random.one_in(DEEP_SHARE);
    let turns = random.between(TURNS.0, TURNS.1);
    let mut office = Office::open(random);
    for _ in 0..turns {
        office.take_turn(deep);
    }
    office.draft.into_list()
}

/// A list as far as it is made, and what there is to name.
struct Office<'a> {
    draft: Draft<'a>,
    /// Each key's maker.
    makers: Vec<u16>,
    code: Vec<u16>,
    /// A sheet for each key, in the keys' order, and one for all.
    sheets: Vec<u16>,
    ended: Vec<u16>,
}

/// A defined key in a segment's list.
type Listed = (u16, u16);

impl<'a> Office<'a> {
    /// One or two users own segments and make keys; one user or two more just call.
    fn open(random: &'a mut Random) -> Office<'a> {
        let owners = random.between(1, 2);
        let users = owners + random.between(1, 2);
        let [threads, code, keys] = [users, 2, owners].map(|least| least + random.below(4));
        let first = random.below(users);
        let mut office = Office {
            draft: Draft::new(random),
            makers: Vec::new(),
            code: Vec::new(),
            sheets: Vec::new(),
            ended: Vec::new(),
        };
        for _ in 0..users {
            office.draft.made(call(Letter::NewUser, 0, 0, 0));
        }
        for thread in 0..threads {
            let user = (first + thread) % users;
            office
                .draft
                .made(call(Letter::StartThread, user as u16, 0, 0));
        }
        for n in 0..keys {
            let maker = (n % owners) as u16;
            let editor = office.draft.thread_of(maker);
            office.draft.made(call(Letter::NewKey, editor, 0, 0));
            office.makers.push(maker);
        }
        for n in 0..code {
            office.open_code((n % owners) as u16);
        }
        for key in 0..keys {
            office.open_sheet(key);
        }
        office.open_last_sheet();
        office
    }

    /// Everyone may call it, but now and then not with some key.
    fn open_code(&mut self, owner: u16) {
        let mut locks = vec![(EXECUTE, ALL.to_string())];
        if self.draft.random.one_in(4) {
            locks.push((EXECUTE | DENY, format!("D{}", self.key())));
        }
        let segment = self.draft.segment(owner, 0, &locks);
        self.code.push(segment);
    }

    /// The key reads, and who doesn't hold it writes.
    fn open_sheet(&mut self, key: usize) {
        let locks = [(READ, format!("D{key}")), (WRITE, format!("!D{key}"))];
        let sheet = self.draft.segment(0, 1, &locks);
        self.sheets.push(sheet);
    }

    /// Everyone reads, but not with some key, and writes, but not without some.
    fn open_last_sheet(&mut self) {
        let locks = [
            (READ | WRITE, ALL.to_string()),
            (READ | DENY, format!("D{}", self.key())),
            (WRITE | DENY, format!("!D{}", self.key())),
        ];
        let sheet = self.draft.segment(0, 1, &locks);
        self.sheets.push(sheet);
    }

    fn key(&mut self) -> u16 {
        self.draft.random.below(self.makers.len()) as u16
    }

    fn take_turn(&mut self, deep: bool) {
        match self.draft.random.below(20) {
            0..4 => self.give(),
            4..8 => self.take(),
            8..10 => self.take_in_vain(),
            10..14 => self.draft.call_segment(&self.code),
            14..16 if deep => self.draft.descend(&self.code),
            14..16 => self.draft.return_call(),
            16 => self.ended.extend(self.draft.come_or_go(MOST_THREADS)),
            _ => self.access(),
        }
    }

    /// A key that its segment's owner made, and that isn't in the list if there is
    /// such a one.
    fn give(&mut self) {
        let segment = match self.draft.random.one_in(8) {
            true => self.draft.random.pick(&self.sheets),
            false => self.draft.random.pick(&self.code),
        };
        let Segment { owner, list, .. } = self.draft.told_of(segment);
        let keys = (0..).zip(&self.makers);
        let own = keys.filter(|(_, maker)| *maker == owner);
        let own: Vec<u16> = own.map(|(key, _)| key).collect();
        let is_new = |key: &u16| !list.contains(&defined(*key));
        let new: Vec<u16> = own.iter().copied().filter(is_new).collect();
        let key = self
            .draft
            .random
            .pick(if new.is_empty() { &own } else { &new });
        self.give_key((segment, key));
    }

    fn give_key(&mut self, (segment, key): Listed) {
        let editor = self.draft.editor_of(segment);
        let _ = self.draft.call(call(Letter::GiveKey, editor, segment, key));
    }

    /// A key in a segment's list, mostly one that an open call hands over.
    fn listed(&mut self) -> Option<Listed> {
        let threads = self.draft.live().into_iter();
        let threads = threads.filter_map(|thread| self.draft.history.thread(thread));
        let calls = threads.flat_map(|thread| &thread.open_calls);
        let open = calls.flat_map(|call| listed_in(call.segment, &call.list));
        let open: Vec<Listed> = open.collect();
        let lists = self.draft.history.segments();
        let all = lists.flat_map(|segment| listed_in(segment, &self.draft.told_of(segment).list));
        let all: Vec<Listed> = all.collect();
        match (open.as_slice(), all.as_slice()) {
            ([], []) => None,
            ([], all) => Some(self.draft.random.pick(all)),
            (_, all) if self.draft.random.one_in(6) => Some(self.draft.random.pick(all)),
            (open, _) => Some(self.draft.random.pick(open)),
        }
    }

    /// Takes a key. Now and then it is given again at once, and called for.
    fn take(&mut self) {
        let Some((segment, key)) = self.listed() else {
            return self.give();
        };
        let editor = self.draft.editor_of(segment);
        let _ = self.draft.call(call(Letter::TakeKey, editor, segment, key));
        self.ask_for(key);
        if self.draft.random.one_in(2) {
            self.give_key((segment, key));
            self.ask_for(key);
        }
        if self.draft.random.one_in(3) {
            let thread = self.draft.thread();
            let _ = self
                .draft
                .call(call(Letter::CallSegment, thread, segment, 0));
            self.ask_for(key);
        }
    }

    /// A T that is mostly refused: of a thread, a segment or a key that isn't there,
    /// from a list without the key, or by another user.
    fn take_in_vain(&mut self) {
        let Some((segment, key)) = self.listed() else {
            return self.give();
        };
        let editor = self.draft.editor_of(segment);
        let [a, b, c] = match self.draft.random.below(8) {
            0 => [editor + BEYOND, segment, key],
            1 | 2 => [self.ended_thread(), segment, key],
            3 => [editor, segment + BEYOND, key],
            4 => [editor, segment, key + BEYOND],
            5 => [editor, self.draft.random.pick(&self.code), key],
            _ => [self.draft.thread(), segment, key],
        };
        let _ = self.draft.call(call(Letter::TakeKey, a, b, c));
        self.ask_for(key);
    }

    /// A thread that has ended, if one has.
    fn ended_thread(&mut self) -> u16 {
        match self.ended.as_slice() {
            [] => BEYOND,
            ended => self.draft.random.pick(ended),
        }
    }

    fn access(&mut self) {
        let (thread, sheet) = (self.draft.thread(), self.draft.random.pick(&self.sheets));
        self.access_to(thread, sheet);
    }

    fn access_to(&mut self, thread: u16, sheet: u16) {
        let operation = self.draft.random.pick(&[READ, WRITE]);
        let _ = self
            .draft
            .call(call(Letter::Access, thread, sheet, operation));
    }

    /// Every thread asks for the key's sheet, and now and then for the last.
    fn ask_for(&mut self, key: u16) {
        let sheet = self.sheets[usize::from(key)];
        for thread in self.draft.live() {
            self.access_to(thread, sheet);
        }
        if self.draft.random.one_in(4) {
            let (thread, last) = (self.draft.thread(), self.sheets[self.sheets.len() - 1]);
            self.access_to(thread, last);
        }
    }
}

fn defined(number: u16) -> Key {
    let kind = Kind::Defined;
    Key { kind, number }
}

/// The defined keys of a segment's list, or of its open call's.
fn listed_in(segment: u16, list: &[Key]) -> impl Iterator<Item = Listed> {
    let defined = list.iter().filter(|key| key.kind == Kind::Defined);
    defined.map(move |key| (segment, key.number))
}
