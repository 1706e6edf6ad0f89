//! A scope for a call: C at its start, and the R's at its end, however it ends.

use crate::guard::Guard;
use crate::numbers::{Segment, Thread};
use crate::refusal;
use std::sync::{PoisonError, RwLock, RwLockWriteGuard};

/// What a scope can be opened on: it calls and returns.
pub(crate) trait Enter {
    fn depth(&self, thread: Thread) -> Option<usize>;
    fn enter(&mut self, thread: Thread, segment: Segment) -> Result<(), refusal::CallSegment>;
    fn leave(&mut self, thread: Thread) -> Result<(), refusal::ReturnCall>;
}

/// A call that is returned from when this is dropped, on a panic too.
struct Scope<'a, E: Enter> {
    on: &'a mut E,
    thread: Thread,
    /// The thread's open calls before this one.
    depth: usize,
}

impl<E: Enter> Drop for Scope<'_, E> {
    /// Down to the depth before the call and never below it. A thread that has
    /// ended has no open calls.
    fn drop(&mut self) {
        let is_open = |on: &E| on.depth(self.thread) > Some(self.depth);
        while is_open(self.on) && self.on.leave(self.thread).is_ok() {}
    }
}

pub(crate) fn within<E: Enter, T>(
    on: &mut E,
    thread: Thread,
    segment: Segment,
    body: impl FnOnce(&mut E) -> T,
) -> Result<T, refusal::CallSegment> {
    let depth = on.depth(thread).unwrap_or(0);
    on.enter(thread, segment)?;
    let scope = Scope { on, thread, depth };
    Ok(body(scope.on))
}

/// A guard that several threads of the operating system share: locked for the C
/// and for the R's, and not between them.
impl Enter for &RwLock<Guard> {
    fn depth(&self, thread: Thread) -> Option<usize> {
        let guard = self.read().unwrap_or_else(PoisonError::into_inner);
        guard.depth(thread)
    }

    fn enter(&mut self, thread: Thread, segment: Segment) -> Result<(), refusal::CallSegment> {
        locked(self).enter(thread, segment)
    }

    fn leave(&mut self, thread: Thread) -> Result<(), refusal::ReturnCall> {
        locked(self).leave(thread)
    }
}

/// No call panics, so who panicked with the lock left a whole state behind.
fn locked(guard: &RwLock<Guard>) -> RwLockWriteGuard<'_, Guard> {
    guard.write().unwrap_or_else(PoisonError::into_inner)
}
