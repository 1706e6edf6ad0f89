//! The accesses that are timed, on both guards.

use bench::route::{self, DEPTHS, FIRST_LOCK, SHEET, THREAD};
use bench::stage::Stage;
use bench::timing::{Times, measure};
use compare::guard::coded;
use reference::guard::{Answer, Guard};
use reference::operations::WRITE;
use std::hint::black_box;

#[derive(Clone, Copy, Debug, PartialEq, Eq)]
pub enum Outcome {
    Granted,
    Refused,
}

impl Outcome {
    pub const ALL: [Outcome; 2] = [Outcome::Granted, Outcome::Refused];

    pub fn name(self) -> &'static str {
        match self {
            Outcome::Granted => "granted",
            Outcome::Refused => "refused",
        }
    }
}

/// Which open call has handed over the two keys that the lock asks for.
#[derive(Clone, Copy, PartialEq, Eq)]
pub enum Holder {
    Oldest,
    Newest,
    /// No open call. Both guards then ask every one of them for one key.
    NoCall,
}

impl Holder {
    pub fn name(self) -> &'static str {
        match self {
            Holder::Oldest => "oldest",
            Holder::Newest => "newest",
            Holder::NoCall => "none",
        }
    }
}

/// A scene's times, in nanoseconds.
pub struct Measured {
    /// A, with the thread to be found.
    pub access: Times,
    /// A C and an R for each open call, and A.
    pub route: Times,
}

#[derive(Clone, Copy, PartialEq, Eq)]
pub struct Scene {
    pub depth: u16,
    pub holder: Holder,
}

impl Scene {
    pub fn all() -> Vec<Scene> {
        let holders = [Holder::Oldest, Holder::Newest, Holder::NoCall];
        holders
            .into_iter()
            .flat_map(|holder| DEPTHS.map(|depth| Scene { depth, holder }))
            // At depth 1 the newest open call is the oldest.
            .filter(|scene| scene.depth > 1 || scene.holder != Holder::Newest)
            .collect()
    }

    pub fn outcome(self) -> Outcome {
        match self.holder {
            Holder::NoCall => Outcome::Refused,
            _ => Outcome::Granted,
        }
    }

    fn stage(self) -> Stage {
        let (holder, text) = match self.holder {
            Holder::Oldest => (0, "D1&D2"),
            Holder::Newest => (self.depth - 1, "D1&D2"),
            Holder::NoCall => (0, "D0&D8"),
        };
        Stage::after(&route::calls(self.depth, holder, &[text.to_string()]))
    }

    fn expected(self) -> u32 {
        match self.outcome() {
            Outcome::Granted => u32::from(FIRST_LOCK),
            Outcome::Refused => 15 * 65_536,
        }
    }

    /// The times in this scene.
    pub fn measured(self) -> Measured {
        let mut stage = self.stage();
        Measured {
            access: self.access_times(&stage),
            route: self.route_times(&mut stage),
        }
    }

    /// The reference's functions are called by pointers that the compiler can't
    /// see through, since it can't see through the proved guard's either.
    fn access_times(self, stage: &Stage) -> Times {
        let Stage { proved, reference } = stage;
        let access: fn(&Guard, u16, u16, u16) -> Answer = black_box(Guard::access);
        let [thread, sheet, write] = [THREAD, SHEET, WRITE];
        assert_eq!(proved.access(thread, sheet, write), self.expected());
        assert_eq!(
            coded(access(reference, thread, sheet, write)),
            self.expected()
        );
        measure(
            || {
                black_box(proved.access(black_box(thread), sheet, write));
            },
            || {
                let _ = black_box(access(reference, black_box(thread), sheet, write));
            },
        )
    }

    /// The returns come first, so that the state is the same before and after.
    fn route_times(self, stage: &mut Stage) -> Times {
        stage.accept(&route::left(self.depth));
        stage.accept(&route::entered(self.depth));
        let Stage { proved, reference } = stage;
        let leave: fn(&mut Guard, u16) -> Answer = black_box(Guard::return_call);
        let enter: fn(&mut Guard, u16, u16) -> Answer = black_box(Guard::call_segment);
        let access: fn(&Guard, u16, u16, u16) -> Answer = black_box(Guard::access);
        measure(
            || {
                (0..self.depth).for_each(|_| {
                    black_box(proved.return_call(THREAD));
                });
                (0..self.depth).for_each(|segment| {
                    black_box(proved.call_segment(THREAD, segment));
                });
                black_box(proved.access(THREAD, SHEET, WRITE));
            },
            || {
                (0..self.depth).for_each(|_| {
                    let _ = black_box(leave(reference, THREAD));
                });
                (0..self.depth).for_each(|segment| {
                    let _ = black_box(enter(reference, THREAD, segment));
                });
                let _ = black_box(access(reference, THREAD, SHEET, WRITE));
            },
        )
    }
}
