//! `keylock key`: which open call of a thread hands a key over after a journal.

use super::failure::{Failure, Status};
use super::input::Input;
use super::output::Target;
use super::source::Source;
use keylock::key_search;
use rotundaaloe::Thread;
use rotundaaloe::formula::Key;

pub fn key(source: &Source, thread: Thread, key: Key) -> Result<Status, Failure> {
    let input = Input::read(source, &Target::StandardOutput)?;
    let shown = key_search::shown(&input.replayed(), thread, key);
    Target::StandardOutput.write(shown.as_bytes())?;
    Ok(Status::Success)
}
