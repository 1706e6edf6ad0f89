//! `keylock asm`: a text journal to a journal.

use super::failure::{Failure, Status};
use super::input;
use super::output::Target;
use super::source::Source;
use std::io::{self, IsTerminal};

pub fn asm(source: &Source, target: &Target) -> Result<Status, Failure> {
    if matches!(target, Target::StandardOutput) && io::stdout().is_terminal() {
        return Err(Failure {
            status: Status::Use,
            report: "keylock: a journal isn't for a terminal: use -o FILE, or a pipe\n".to_string(),
        });
    }
    let name = source.name();
    let bytes = source.read(target)?;
    if input::is_journal(&bytes) {
        let message = "no text, it begins with KLD: 'keylock dis' makes a journal a text";
        return Err(Failure::input(&name, message));
    }
    let text = input::read_text(&name, &bytes)?;
    target.write(text.journal.as_bytes())?;
    Ok(Status::Success)
}
