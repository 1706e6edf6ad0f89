//! Guards for the lessons: a small one that does what documents 01 and 02 say of
//! the calls that the lessons make, and the same with one of 26 faults. Of the
//! limits it judges only that of a thread's open calls.

use reference::formula::{Literal, Product, compile};
use reference::limits::MAX_FRAMES;
use reference::{Issued, Key, Kind};
use rotundaaloe::{Call, Defined, Lock, Operations, Record, Segment, Thread, User};
use std::collections::BTreeMap;
use std::slice;

/// The fault that a lesson catches.
#[derive(Clone, Copy, Debug, PartialEq, Eq)]
pub enum Fault {
    /// Lesson 1: only the newest open call's keys are held.
    LosesKeysOnTheWayDown,
    /// Lesson 2: one key of a product is taken for all of them.
    GrantsOffTheRoute,
    /// Lesson 3: a return gives no key back.
    LeavesAKeyBehind,
    /// Lesson 4: keys are one flat set, and a return strikes the call's from it.
    CollectsAKeyTooEarly,
    /// Lesson 5: a dropped lock is still asked.
    GrantsOnADroppedLock,
    /// Lesson 7: a product's keys must be handed over in their order.
    FixesAnOrder,
    /// Lesson 7: where the newest lock that opens grants, no deny lock is asked.
    LetsAGrantOutvote,
    /// Lesson 7: barred keys alone open only with some key that a call handed
    /// over.
    WantsAnotherKey,
    /// Lesson 7: an open call hands over its segment's list as it is at the check.
    ReadsTheListAtTheCheck,
    /// Lesson 8: a return closes the newest open call of every thread.
    ReturnsForAll,
    /// Lesson 8: the keys of all threads' open calls are held by each.
    SharesKeys,
    /// Lesson 8: a check looks at the thread in the next place, if there is one.
    ChecksTheNext,
    /// Lesson 8: the limit is for the open calls of all threads together.
    SharesTheLimit,
    /// Lesson 9: the user with the thread's number owns what the thread makes.
    TakesTheThreadForTheOwner,
    /// Lesson 9: a key is given by the thread that made it, and by no other.
    TakesTheThreadForTheMaker,
    /// Lesson 9: a thread that has ended edits for its user still.
    LetsTheEndedEdit,
    /// Lesson 10: open calls keep a key that is taken until they return.
    KeepsTheTaken,
    /// Lesson 10: only the threads of the user who takes a key lose it.
    WithdrawsFromTheTakersThreads,
    /// Lesson 10: a key that is given again comes back to the open calls that lost
    /// it.
    BringsTheTakenBack,
    /// Lesson 10: of each thread only the newest open call loses a key.
    WithdrawsFromTheNewest,
    /// Lesson 10: a key that is taken from one segment is lost by the open calls of
    /// all.
    WithdrawsFromEverySegment,
    /// Lesson 11: of several grant locks that open the lowest answers.
    NamesTheLowestGrant,
    /// Lesson 11: of equally tight grant locks the highest answers.
    GivesTiesToTheHigher,
    /// Lesson 11: a lock is as tight as its longest product, whether or not that opens.
    CountsShutProducts,
    /// Lesson 11: a lock is as tight as its product has plain keys.
    CountsPlainKeysOnly,
    /// Lesson 11: of several deny locks that open the tightest is named.
    NamesTheTightestDeny,
}

impl Fault {
    /// Those of lessons 1 to 5, in their order.
    pub const FIVE: [Fault; 5] = [
        Fault::LosesKeysOnTheWayDown,
        Fault::GrantsOffTheRoute,
        Fault::LeavesAKeyBehind,
        Fault::CollectsAKeyTooEarly,
        Fault::GrantsOnADroppedLock,
    ];

    /// Those of lesson 7, in the order of its traps.
    pub const TRAPS: [Fault; 4] = [
        Fault::FixesAnOrder,
        Fault::LetsAGrantOutvote,
        Fault::WantsAnotherKey,
        Fault::ReadsTheListAtTheCheck,
    ];

    /// Those of lesson 8, in its order.
    pub const NEIGHBOURS: [Fault; 4] = [
        Fault::ReturnsForAll,
        Fault::SharesKeys,
        Fault::ChecksTheNext,
        Fault::SharesTheLimit,
    ];

    /// Those of lesson 9, in its order.
    pub const WINDOWS: [Fault; 3] = [
        Fault::TakesTheThreadForTheOwner,
        Fault::TakesTheThreadForTheMaker,
        Fault::LetsTheEndedEdit,
    ];

    /// Those of lesson 10, in its order.
    pub const WITHDRAWALS: [Fault; 5] = [
        Fault::KeepsTheTaken,
        Fault::WithdrawsFromTheTakersThreads,
        Fault::BringsTheTakenBack,
        Fault::WithdrawsFromTheNewest,
        Fault::WithdrawsFromEverySegment,
    ];

    /// Those of lesson 11, in its order.
    pub const CHOICES: [Fault; 5] = [
        Fault::NamesTheLowestGrant,
        Fault::GivesTiesToTheHigher,
        Fault::CountsShutProducts,
        Fault::CountsPlainKeysOnly,
        Fault::NamesTheTightestDeny,
    ];
}

/// An accepted answer, or a refusal's two numbers.
pub type Answer = Result<u16, Refused>;
type Refused = (u32, u16);

struct Made {
    owner: User,
    /// The key list.
    keys: Vec<Key>,
}

struct Standing {
    segment: Segment,
    operations: u16,
    products: Vec<Product>,
}

impl Standing {
    fn denies(&self) -> bool {
        self.operations & 8 != 0
    }
}

/// A lock that a check finds open.
#[derive(Clone, Copy)]
struct Open {
    number: u16,
    denies: bool,
    tightness: usize,
}

struct OpenCall {
    segment: Segment,
    /// What it hands over.
    keys: Vec<Key>,
    /// What it handed over until it was taken.
    lost: Vec<Key>,
}

impl OpenCall {
    fn lose(&mut self, key: Key) {
        self.lost
            .extend(self.keys.extract_if(.., |held| *held == key));
    }

    fn get_back(&mut self, key: Key) {
        self.keys
            .extend(self.lost.extract_if(.., |lost| *lost == key));
    }
}

struct Running {
    user: User,
    live: bool,
    /// The newest last.
    open_calls: Vec<OpenCall>,
    /// What a guard with a flat set of keys has.
    flat: Vec<Key>,
}

#[derive(Default)]
pub struct Guard {
    fault: Option<Fault>,
    users: u16,
    /// The thread that made each defined key.
    makers: Vec<Thread>,
    segments: Vec<Made>,
    locks_made: u16,
    standing: BTreeMap<u16, Standing>,
    threads: Vec<Running>,
}

const EXECUTE: u16 = 1;

fn defined(Defined(number): Defined) -> Key {
    let kind = Kind::Defined;
    Key { kind, number }
}

impl Guard {
    pub fn with(fault: Option<Fault>) -> Guard {
        Guard {
            fault,
            ..Guard::default()
        }
    }

    pub fn call(&mut self, record: &Record) -> Answer {
        match Call::of(record).expect("a lesson makes calls") {
            Call::NewUser => Ok(next(&mut self.users)),
            Call::NewKey { thread } => self.new_key(thread),
            Call::NewSegment { thread, .. } => self.new_segment(thread),
            Call::StartThread { user } => Ok(self.start(user)),
            Call::EndThread { thread } => {
                let ended = self.running(thread);
                ended.live = false;
                Ok(ended.open_calls.drain(..).count() as u16)
            }
            Call::GiveKey {
                thread,
                segment,
                key,
            } => self.give(thread, segment, key),
            Call::TakeKey {
                thread,
                segment,
                key,
            } => self.take(thread, segment, defined(key)),
            Call::AddLock {
                thread,
                segment,
                operations,
                text,
            } => self.add_lock(thread, segment, operations, text),
            Call::DropLock { thread, lock } => self.drop_lock(thread, lock),
            Call::CallSegment { thread, segment } => self.enter(thread, segment),
            Call::ReturnCall { thread } => self.leave(thread),
            Call::Access {
                thread,
                segment,
                operation,
            } => self.check(thread, segment, operation),
        }
    }

    fn list(&mut self, Segment(segment): Segment) -> &mut Vec<Key> {
        &mut self.segments[usize::from(segment)].keys
    }

    fn running(&mut self, Thread(thread): Thread) -> &mut Running {
        &mut self.threads[usize::from(thread)]
    }

    /// Who edits by a thread.
    fn editor(&self, Thread(thread): Thread) -> Result<User, Refused> {
        let running = &self.threads[usize::from(thread)];
        match running.live || self.fault == Some(Fault::LetsTheEndedEdit) {
            true => Ok(running.user),
            false => Err((2, 0)),
        }
    }

    fn must_own(&self, thread: Thread, Segment(segment): Segment) -> Result<(), Refused> {
        let owner = self.segments[usize::from(segment)].owner;
        match self.editor(thread)? == owner {
            true => Ok(()),
            false => Err((6, 0)),
        }
    }

    fn has_made(&self, thread: Thread, Defined(key): Defined) -> bool {
        let maker = self.makers[usize::from(key)];
        let user = |Thread(thread): Thread| self.threads[usize::from(thread)].user;
        match self.fault {
            Some(Fault::TakesTheThreadForTheMaker) => maker == thread,
            _ => user(maker) == user(thread),
        }
    }

    fn new_key(&mut self, thread: Thread) -> Answer {
        self.editor(thread)?;
        self.makers.push(thread);
        Ok(self.makers.len() as u16 - 1)
    }

    fn new_segment(&mut self, thread: Thread) -> Answer {
        let editor = self.editor(thread)?;
        let owner = match self.fault {
            Some(Fault::TakesTheThreadForTheOwner) => User(thread.0),
            _ => editor,
        };
        let number = self.segments.len() as u16;
        let kind = Kind::Segment;
        let keys = vec![Key { kind, number }];
        self.segments.push(Made { owner, keys });
        Ok(number)
    }

    fn start(&mut self, user: User) -> u16 {
        self.threads.push(Running {
            user,
            live: true,
            open_calls: Vec::new(),
            flat: Vec::new(),
        });
        self.threads.len() as u16 - 1
    }

    fn give(&mut self, thread: Thread, segment: Segment, key: Defined) -> Answer {
        self.must_own(thread, segment)?;
        if !self.has_made(thread, key) {
            return Err((6, 0));
        }
        if self.fault == Some(Fault::BringsTheTakenBack) {
            let calls = self.threads.iter_mut().flat_map(|of| &mut of.open_calls);
            let calls = calls.filter(|call| call.segment == segment);
            calls.for_each(|call| call.get_back(defined(key)));
        }
        let list = self.list(segment);
        list.push(defined(key));
        Ok(list.len() as u16)
    }

    fn take(&mut self, thread: Thread, segment: Segment, key: Key) -> Answer {
        self.must_own(thread, segment)?;
        let taker = self.editor(thread)?;
        self.list(segment).retain(|listed| *listed != key);
        self.withdraw(taker, segment, key);
        Ok(self.list(segment).len() as u16)
    }

    /// Withdraws a key from every open call of the segment that it is taken from.
    fn withdraw(&mut self, taker: User, segment: Segment, key: Key) {
        let fault = self.fault;
        for thread in &mut self.threads {
            let (user, count) = (thread.user, thread.open_calls.len());
            for (call, newer) in thread.open_calls.iter_mut().zip((0..count).rev()) {
                let is_of_it = call.segment == segment;
                let loses = match fault {
                    Some(Fault::KeepsTheTaken) => false,
                    Some(Fault::WithdrawsFromTheTakersThreads) => is_of_it && user == taker,
                    Some(Fault::WithdrawsFromTheNewest) => is_of_it && newer == 0,
                    Some(Fault::WithdrawsFromEverySegment) => true,
                    _ => is_of_it,
                };
                if loses {
                    call.lose(key);
                }
            }
        }
    }

    fn add_lock(
        &mut self,
        thread: Thread,
        segment: Segment,
        operations: Operations,
        text: &[u8],
    ) -> Answer {
        self.must_own(thread, segment)?;
        let issued = Issued {
            users: u32::from(self.users),
            threads: self.threads.len() as u32,
            segments: self.segments.len() as u32,
            defined: self.makers.len() as u32,
        };
        let lock = Standing {
            segment,
            operations: operations.0,
            products: compile(text, &issued).expect("a lesson's lock is well made"),
        };
        let number = next(&mut self.locks_made);
        self.standing.insert(number, lock);
        Ok(number)
    }

    fn drop_lock(&mut self, thread: Thread, Lock(number): Lock) -> Answer {
        self.editor(thread)?;
        let lock = self.standing.get(&number).ok_or((5, 0))?;
        self.must_own(thread, lock.segment)?;
        let products = lock.products.len();
        if self.fault != Some(Fault::GrantsOnADroppedLock) {
            self.standing.remove(&number);
        }
        Ok(products as u16)
    }

    fn enter(&mut self, thread: Thread, segment: Segment) -> Answer {
        let lock = self.check(thread, segment, EXECUTE)?;
        if self.open_calls(thread, Fault::SharesTheLimit).count() >= MAX_FRAMES {
            return Err((10, 0));
        }
        let keys = self.list(segment).clone();
        let thread = self.running(thread);
        thread.flat.extend(&keys);
        thread.open_calls.push(OpenCall {
            segment,
            keys,
            lost: Vec::new(),
        });
        Ok(lock)
    }

    fn leave(&mut self, thread: Thread) -> Answer {
        let fault = self.fault;
        let running = self.running(thread);
        let OpenCall { segment, keys, .. } = running.open_calls.pop().ok_or((9, 0))?;
        if fault != Some(Fault::LeavesAKeyBehind) {
            running.flat.retain(|key| !keys.contains(key));
        }
        if fault == Some(Fault::ReturnsForAll) {
            self.close_newest_of_others(thread);
        }
        Ok(segment.0)
    }

    fn close_newest_of_others(&mut self, Thread(thread): Thread) {
        let (before, rest) = self.threads.split_at_mut(usize::from(thread));
        for other in before.iter_mut().chain(&mut rest[1..]) {
            other.open_calls.pop();
        }
    }

    fn check(&self, thread: Thread, segment: Segment, operation: u16) -> Answer {
        let thread = self.looked_at(thread);
        let opening = self.standing.iter().filter(|(_, lock)| {
            let stands = lock.segment == segment && lock.operations & operation != 0;
            stands && lock.products.iter().any(|p| self.opens(thread, p))
        });
        let opening = opening.map(|(number, lock)| Open {
            number: *number,
            denies: lock.denies(),
            tightness: self.tightness(thread, lock),
        });
        let mut opening: Vec<Open> = opening.collect();
        if self.fault == Some(Fault::LetsAGrantOutvote)
            && opening.last().is_some_and(|last| !last.denies)
        {
            opening.retain(|open| !open.denies);
        }
        let (denying, granting): (Vec<Open>, Vec<Open>) =
            opening.into_iter().partition(|open| open.denies);
        match (self.denying(&denying), self.answering(&granting)) {
            (Some(open), _) => Err((14, open.number)),
            (None, Some(open)) => Ok(open.number),
            (None, None) => Err((15, 0)),
        }
    }

    /// Of the deny locks that open, by rising number, the one that is named.
    fn denying(&self, open: &[Open]) -> Option<Open> {
        match self.fault {
            Some(Fault::NamesTheTightestDeny) => tightest(open),
            _ => open.first().copied(),
        }
    }

    /// Of the grant locks that open, by rising number, the one that answers.
    fn answering(&self, open: &[Open]) -> Option<Open> {
        match self.fault {
            Some(Fault::NamesTheLowestGrant) => open.first().copied(),
            // Of several greatest the last is taken.
            Some(Fault::GivesTiesToTheHigher) => {
                open.iter().copied().max_by_key(|open| open.tightness)
            }
            _ => tightest(open),
        }
    }

    /// How many keys the longest product of an open lock has that opens.
    fn tightness(&self, thread: Thread, lock: &Standing) -> usize {
        let counts_all = self.fault == Some(Fault::CountsShutProducts);
        let counts_barred = self.fault != Some(Fault::CountsPlainKeysOnly);
        let products = lock.products.iter();
        let counted = products.filter(|product| counts_all || self.opens(thread, product));
        let lengths = counted.map(|product| {
            let keys = product.literals().iter();
            keys.filter(|key| counts_barred || !key.barred).count()
        });
        lengths.max().unwrap_or(0)
    }

    /// The thread that a check of this one looks at.
    fn looked_at(&self, thread: Thread) -> Thread {
        let next = Thread(thread.0 + 1);
        let is_there = usize::from(next.0) < self.threads.len();
        match self.fault {
            Some(Fault::ChecksTheNext) if is_there => next,
            _ => thread,
        }
    }

    fn opens(&self, thread: Thread, product: &Product) -> bool {
        let literals = product.literals();
        let agrees = |literal: &Literal| self.holds(thread, literal.key) != literal.barred;
        let opens = literals.iter().all(agrees);
        match self.fault {
            Some(Fault::GrantsOffTheRoute) => literals.iter().any(agrees),
            Some(Fault::FixesAnOrder) => opens && self.came_in_order(thread, literals),
            Some(Fault::WantsAnotherKey) => {
                let asks = literals.iter().any(|literal| !literal.barred);
                opens && (asks || !self.handed_over(thread).is_empty())
            }
            _ => opens,
        }
    }

    fn holds(&self, thread: Thread, key: Key) -> bool {
        match key.kind {
            Kind::User => self.threads[usize::from(thread.0)].user.0 == key.number,
            Kind::Thread => thread.0 == key.number,
            Kind::Segment | Kind::Defined => self.handed_over(thread).contains(&key),
        }
    }

    /// The thread's open calls, the oldest first. A guard that shares them has
    /// those of all threads.
    fn open_calls(&self, Thread(thread): Thread, shares: Fault) -> impl Iterator<Item = &OpenCall> {
        let threads = match self.fault == Some(shares) {
            true => &self.threads[..],
            false => slice::from_ref(&self.threads[usize::from(thread)]),
        };
        threads.iter().flat_map(|thread| &thread.open_calls)
    }

    /// The keys that the open calls hand over, the oldest call's first.
    fn handed_over(&self, thread: Thread) -> Vec<Key> {
        let flat = &self.threads[usize::from(thread.0)].flat;
        let open_calls = self.open_calls(thread, Fault::SharesKeys);
        let list = |Segment(segment): Segment| self.segments[usize::from(segment)].keys.clone();
        let keys = |call: &OpenCall| match self.fault {
            Some(Fault::ReadsTheListAtTheCheck) => list(call.segment),
            _ => call.keys.clone(),
        };
        match self.fault {
            Some(Fault::LeavesAKeyBehind | Fault::CollectsAKeyTooEarly) => flat.clone(),
            Some(Fault::LosesKeysOnTheWayDown) => open_calls.last().map(keys).unwrap_or_default(),
            _ => open_calls.flat_map(keys).collect(),
        }
    }

    /// Whether the product's segment keys were handed over in its order.
    fn came_in_order(&self, thread: Thread, literals: &[Literal]) -> bool {
        let handed_over = self.handed_over(thread);
        let plain = literals.iter().filter(|literal| !literal.barred);
        plain
            .filter_map(|literal| handed_over.iter().position(|key| *key == literal.key))
            .is_sorted()
    }
}

/// Of locks by rising number the tightest, the lowest of equal ones.
fn tightest(open: &[Open]) -> Option<Open> {
    let falling = open.iter().rev().copied();
    // Of several greatest the last is taken.
    falling.max_by_key(|open| open.tightness)
}

/// Hands out the next number.
fn next(count: &mut u16) -> u16 {
    *count += 1;
    *count - 1
}
