//! Both guards in one state, that calls have led to.

use compare::guard::{Guard, coded};
use reference::journal::Record;

pub struct Stage {
    pub proved: Guard,
    pub reference: reference::guard::Guard,
}

impl Stage {
    /// The state after these calls on the empty one.
    pub fn after(calls: &[Record]) -> Stage {
        let mut stage = Stage {
            proved: Guard::new(),
            reference: reference::guard::Guard::new(),
        };
        stage.accept(calls);
        stage
    }

    /// Panics where a guard refuses one of these calls or the answers differ.
    pub fn accept(&mut self, calls: &[Record]) {
        for record in calls {
            let [proved, reference] = self.call(record);
            assert_eq!(proved, reference, "the answers to {record:?}");
            assert!(proved < 65_536, "{record:?} is refused");
        }
    }

    /// One call by its letter on each guard: the proved guard's answer and the
    /// reference's, as [`coded`] says.
    pub fn call(&mut self, record: &Record) -> [u32; 2] {
        let Record {
            letter, a, b, c, ..
        } = *record;
        let reference = self.reference.call(letter, a, b, c, &record.text);
        [
            self.proved.call(letter, a, b, c, &record.text),
            coded(reference),
        ]
    }
}
