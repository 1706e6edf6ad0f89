//! Key searches: a thread with some open calls, and keys that the newest of them
//! has handed over, or the oldest, or none; played on both guards, and their
//! instructions counted.

use crate::callgrind;
use crate::counting::count_names;
use bench::route::{self, DEPTHS, THREAD};
use bench::stage::Stage;
use compare::key_number;
use reference::guard::{Guard, Refusal};
use reference::{Key, Kind};
use rotundaaloe::raw::{self, Cells};
use std::hint::black_box;

/// A key search, of a thread with so many open calls.
#[derive(Clone, Copy)]
pub struct Search {
    depth: u16,
    thread: u16,
    wanted: Wanted,
}

/// The key that is searched for.
#[derive(Clone, Copy)]
enum Wanted {
    /// The newest open call's own.
    Newest,
    /// The last of the eight that the oldest open call has handed over.
    Oldest,
    /// One that is in no list.
    Unlisted,
    /// The thread's user's.
    Users,
}

/// Not started.
const NO_THREAD: u16 = 1;

/// The proved function's answer where no open call hands the key over.
const NO_PLACE: u32 = 65_535;

/// The proved function's answer where the reference's is this.
pub fn coded(found: Result<Option<usize>, Refusal>) -> u32 {
    match found {
        Ok(place) => place.map_or(NO_PLACE, |place| place as u32),
        Err(refusal) => refusal.number() * 65_536,
    }
}

/// Every search that is counted.
pub fn all() -> Vec<Search> {
    let search = |thread, depth, wanted| Search {
        depth,
        thread,
        wanted,
    };
    let mut searches = Vec::new();
    for depth in DEPTHS {
        let wanted = [Wanted::Newest, Wanted::Oldest, Wanted::Unlisted];
        searches.extend(wanted.map(|wanted| search(THREAD, depth, wanted)));
    }
    searches.push(search(THREAD, 1, Wanted::Users));
    searches.push(search(NO_THREAD, 1, Wanted::Newest));
    searches
}

impl Search {
    /// How many calls are open, which key is searched for, and the outcome, in
    /// words.
    pub fn columns(self) -> [String; 3] {
        let key = match self.wanted {
            Wanted::Newest => "the newest call's own",
            Wanted::Oldest => "the oldest call's eighth",
            Wanted::Unlisted => "in no list",
            Wanted::Users => "the thread's user's",
        };
        let outcome = match self.outcome() {
            Ok(Some(place)) => place.to_string(),
            Ok(None) => "none".to_string(),
            Err(refusal) => format!("refused {}", refusal.number()),
        };
        let open_calls = match self.thread {
            NO_THREAD => "not live".to_string(),
            _ => self.depth.to_string(),
        };
        [open_calls, key.to_string(), outcome]
    }

    /// The name that its counts have.
    pub fn name(self) -> String {
        format!("key search: {}", self.columns().join(", "))
    }

    /// Segment 0 is the oldest call's, and hands over D1 to D7 too. D8 is made.
    fn key(self) -> Key {
        let (kind, number) = match self.wanted {
            Wanted::Newest => (Kind::Segment, self.depth - 1),
            Wanted::Oldest => (Kind::Defined, 7),
            Wanted::Unlisted => (Kind::Defined, 8),
            Wanted::Users => (Kind::User, 0),
        };
        Key { kind, number }
    }

    /// What both must answer.
    fn outcome(self) -> Result<Option<usize>, Refusal> {
        if self.thread == NO_THREAD {
            return Err(Refusal::NoThread);
        }
        Ok(match self.wanted {
            Wanted::Newest => Some(0),
            Wanted::Oldest => Some(usize::from(self.depth) - 1),
            Wanted::Unlisted | Wanted::Users => None,
        })
    }

    fn stage(self) -> Stage {
        Stage::after(&route::calls(self.depth, 0, &[]))
    }

    /// Both have answered as expected.
    fn assert_found(self, proved: u32, reference: Result<Option<usize>, Refusal>) {
        let name = self.name();
        assert_eq!(proved, coded(self.outcome()), "{name}");
        assert_eq!(reference, self.outcome(), "{name}");
    }

    /// Asks both guards. Nothing is counted.
    pub fn tried(self) {
        let Stage { proved, reference } = self.stage();
        let key = self.key();
        let proved = raw::find_key(proved.cells(), self.thread, key_number(&key));
        self.assert_found(proved, reference.find_key(self.thread, key));
    }

    /// Has the instructions of each guard counted, as those of calls are.
    pub fn count(self) {
        type Find = fn(&Guard, u16, Key) -> Result<Option<usize>, Refusal>;
        let find: Find = black_box(Guard::find_key);
        let [proved_name, reference_name] = count_names(&self.name());
        let Stage { proved, reference } = &black_box(self.stage());
        let (thread, key) = black_box((self.thread, self.key()));
        let number = black_box(key_number(&key));
        let cells: &Cells = black_box(proved.cells());
        let proved = callgrind::count(&proved_name, || raw::find_key(cells, thread, number));
        let reference = callgrind::count(&reference_name, || find(reference, thread, key));
        self.assert_found(proved, reference);
    }
}
