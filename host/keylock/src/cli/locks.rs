//! `keylock locks`: a segment's lock list as a user sees it after a journal.

use super::failure::{Failure, Status};
use super::input::Input;
use super::output::Target;
use super::source::Source;
use keylock::listing;
use rotundaaloe::{Segment, User};

pub fn locks(
    source: &Source,
    user: User,
    segment: Segment,
    rows: Option<usize>,
) -> Result<Status, Failure> {
    let input = Input::read(source, &Target::StandardOutput)?;
    let shown = listing::shown(&input.replayed(), user, segment, rows);
    Target::StandardOutput.write(shown.as_bytes())?;
    Ok(Status::Success)
}
