//! The values of a call's fields: mostly what the call needs, now and then one
//! beside it.

use super::{Caller, Segment, Thread};
use reference::limits::MAX_LIVE_THREADS;
use reference::operations::{DENY, EXECUTE, READ, WRITE};

/// How many threads further on one would stand at the same place.
const PLACES: u16 = MAX_LIVE_THREADS as u16;
/// One in this many edits is by any live thread, one in as many by a thread that
/// ended, and one in as many keys that are given is anyone's.
const OTHERS_SHARE: usize = 16;

impl Caller<'_> {
    /// The right value, or now and then one beside it: around `count`, around a
    /// number that would share its place, or anything.
    pub(crate) fn or_stray(&mut self, right: u16, count: usize) -> u16 {
        if !self.random.one_in(self.world.stray) {
            return right;
        }
        match self.random.below(6) {
            0 => count as u16,
            1 => (count + self.random.below(3)) as u16,
            2 => right.wrapping_add(PLACES),
            3 => right.wrapping_sub(PLACES),
            4 => self.random.below(count.max(1)) as u16,
            _ => self.random.bits() as u16,
        }
    }

    pub(super) fn user(&mut self) -> u16 {
        let user = self.random.below(self.users.max(1)) as u16;
        self.or_stray(user, self.users)
    }

    pub(crate) fn thread(&mut self) -> u16 {
        let thread = match self.live.as_slice() {
            [] => 0,
            live => self.random.pick(live).number,
        };
        self.or_stray(thread, self.threads_started)
    }

    /// The user of a live thread.
    pub(super) fn user_of(&self, thread: u16) -> Option<u16> {
        let thread = self.live.iter().find(|live| live.number == thread);
        thread.map(|thread| thread.user)
    }

    /// A thread to edit by, whoever's it is.
    pub(super) fn editor(&mut self) -> u16 {
        self.editor_among(|_| true)
    }

    /// A thread to edit the segment by: any of its owner's, if one is live.
    pub(super) fn editor_of(&mut self, segment: u16) -> u16 {
        let owner = self.segments.get(usize::from(segment));
        let owner = owner.map(|segment| segment.owner);
        self.editor_among(|thread| Some(thread.user) == owner)
    }

    fn editor_among(&mut self, suits: impl Fn(&Thread) -> bool) -> u16 {
        let threads: Vec<Thread> = match self.random.below(OTHERS_SHARE) {
            0 => self.ended.clone(),
            1 => self.live.clone(),
            _ => self.live.iter().copied().filter(suits).collect(),
        };
        match threads.as_slice() {
            [] => self.thread(),
            threads => {
                let thread = self.random.pick(threads).number;
                self.or_stray(thread, self.threads_started)
            }
        }
    }

    /// A segment, of this kind if there is one.
    pub(crate) fn segment(&mut self, sheet: Option<bool>) -> u16 {
        let count = self.segments.len();
        if count == 0 {
            return 0;
        }
        let start = self.random.below(count);
        let segment = (0..count)
            .map(|step| (start + step) % count)
            .find(|place| sheet.is_none_or(|sheet| self.segments[*place].sheet == sheet));
        self.or_stray(segment.unwrap_or(start) as u16, count)
    }

    /// A key that the thread's user made, if there is one near a random place; now
    /// and then anyone's.
    pub(super) fn key_of(&mut self, thread: u16) -> u16 {
        let count = self.makers.len();
        if count == 0 {
            return 0;
        }
        let maker = self.user_of(thread);
        let start = self.random.below(count);
        let key = (0..count.min(40))
            .map(|step| (start + step) % count)
            .find(|place| Some(self.makers[*place]) == maker);
        let key = match self.random.below(OTHERS_SHARE) {
            0 => start,
            _ => key.unwrap_or(start),
        };
        self.or_stray(key as u16, count)
    }

    /// A key that is in the segment's list, if there is one.
    pub(super) fn given(&mut self, segment: u16) -> u16 {
        let key = match self.segments.get(usize::from(segment)) {
            Some(Segment { given, .. }) if !given.is_empty() => self.random.pick(given),
            _ => self.random.below(self.makers.len().max(1)) as u16,
        };
        self.or_stray(key, self.makers.len())
    }

    pub(super) fn operations(&mut self, segment: u16) -> u16 {
        let sheet = self.segments.get(usize::from(segment));
        let right = match sheet.is_some_and(|segment| segment.sheet) {
            true => self.random.pick(&[READ, WRITE, READ | WRITE]),
            false => EXECUTE,
        };
        let deny = if self.random.one_in(5) { DENY } else { 0 };
        if self.random.one_in(self.world.stray) {
            return self
                .random
                .pick(&[0, 1, 2, 3, 4, 7, 8, 15, 16, 17, 20, 256, 32_769]);
        }
        right + deny
    }
}
