//! `keylock dis`: a journal to a text journal.

use super::failure::{Failure, Status};
use super::input;
use super::output::Target;
use super::source::{Name, Source};
use keylock::text;
use rotundaaloe::Journal;

pub fn dis(source: &Source, target: &Target) -> Result<Status, Failure> {
    let bytes = source.read(target)?;
    let journal = read(&source.name(), &bytes)?;
    target.write(text::disassemble(&journal).as_bytes())?;
    Ok(Status::Success)
}

fn read(name: &Name, bytes: &[u8]) -> Result<Journal, Failure> {
    let journal = input::journal(name, bytes);
    let is_text = || !bytes.is_empty() && input::parse(bytes).is_ok();
    journal.map_err(|mut failure| {
        if !input::is_journal(bytes) && is_text() {
            failure.report += "It is a text journal already: 'keylock asm' makes it a journal.\n";
        }
        failure
    })
}
