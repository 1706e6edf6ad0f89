//! `keylock state`: what stands in a state file.

use super::failure::{Failure, Status};
use super::output::Target;
use super::source::Source;
use keylock::state;
use rotundaaloe::Guard;
use rotundaaloe::state::FILE_BYTES;

pub fn state(source: &Source, target: &Target) -> Result<Status, Failure> {
    let bytes = source.read_beyond(FILE_BYTES, target)?;
    let guard = Guard::from_bytes(&bytes);
    let guard =
        guard.map_err(|refusal| Failure::input(&source.name(), state::explain(&bytes, refusal)))?;
    target.write(state::shown(&guard).as_bytes())?;
    Ok(Status::Success)
}
