//! Telling journals from text journals.

use super::failure::Failure;
use super::mistakes;
use super::output::{self, Target};
use super::source::{Name, Source};
use keylock::damage;
use keylock::edits;
use keylock::progress::Progress;
use keylock::text::{self, Mistakes, Text};
use rotundaaloe::journal::MARK;
use rotundaaloe::state;
use rotundaaloe::{Guard, Journal};

/// A journal in either form.
pub struct Input {
    pub name: Name,
    pub journal: Journal,
    /// What the text says beside the journal, where it was a text.
    pub text: Option<Text>,
}

impl Input {
    /// Reads a journal or a text journal, which isn't the target.
    pub fn read(source: &Source, target: &Target) -> Result<Input, Failure> {
        let name = source.name();
        let bytes = source.read(target)?;
        if bytes.is_empty() || is_journal(&bytes) {
            let journal = journal(&name, &bytes)?;
            return Ok(Input {
                name,
                journal,
                text: None,
            });
        }
        let text = read_text(&name, &bytes)?;
        Ok(Input {
            name,
            journal: text.journal.clone(),
            text: Some(text),
        })
    }

    /// The guard after the journal's calls on the empty state.
    pub fn replayed(&self) -> Guard {
        let mut guard = Guard::new();
        let mut progress = Progress::new(self.journal.records().count(), "records");
        for (place, record) in self.journal.records().enumerate() {
            // A refused call changes nothing, and the next one follows.
            let _ = guard.call(record);
            progress.at(place);
        }
        guard
    }
}

/// Whether the bytes begin as a journal does.
pub fn is_journal(bytes: &[u8]) -> bool {
    bytes.starts_with(MARK)
}

/// The journal of these bytes, or where they are broken.
pub fn journal(name: &Name, bytes: &[u8]) -> Result<Journal, Failure> {
    if bytes.is_empty() {
        return Err(Failure::input(name, "no bytes: not a journal (16)"));
    }
    let journal = Journal::from_bytes(bytes);
    journal.map_err(|refusal| Failure::input(name, damage::explain(bytes, refusal)))
}

/// The text of these bytes, or its mistakes. A note on an edit that names a thread
/// which can't be there goes to standard error.
pub fn read_text(name: &Name, bytes: &[u8]) -> Result<Text, Failure> {
    let text = parse(bytes).map_err(|mistakes| wrong(name, bytes, &mistakes))?;
    if let Some((line, note)) = edits::note(&text) {
        output::complain(&format!("{name}:{line}: note: {note}\n"));
    }
    Ok(text)
}

/// The text of these bytes, with a progress line.
pub fn parse(bytes: &[u8]) -> Result<Text, Mistakes> {
    let mut progress = Progress::new(text::lines(bytes).count(), "lines");
    text::parse_with(bytes, |line| progress.at(line))
}

/// Mistakes, where the bytes could have been either form.
fn wrong(name: &Name, bytes: &[u8], mistakes: &Mistakes) -> Failure {
    const NEITHER: &str = "neither a journal (16: no mark KLD) nor a text journal";
    if let Some(sign) = sign_of_no_text(bytes, mistakes) {
        return Failure::input(name, format!("{NEITHER}: {sign}"));
    }
    let mut failure = mistakes::failure(name, bytes, mistakes);
    if mistakes.count > 1 && mistakes.right_calls == 0 {
        failure.report = format!("keylock: {name}: {NEITHER}; as a text:\n{}", failure.report);
    }
    failure
}

/// What shows that the bytes are no text, where something does.
fn sign_of_no_text(bytes: &[u8], mistakes: &Mistakes) -> Option<String> {
    if bytes.starts_with(state::MARK) {
        return Some("it is a state file, which 'keylock state' shows".to_string());
    }
    if bytes.starts_with(b"\xFF\xFE") || bytes.starts_with(b"\xFE\xFF") {
        return Some("it is UTF-16, save it as UTF-8".to_string());
    }
    let text = |byte: &u8| *byte >= b' ' || matches!(byte, b'\t' | b'\n' | b'\r');
    if mistakes.right_calls > 0 || bytes.iter().all(text) {
        return None;
    }
    let first = mistakes.first.first()?;
    let what = match first.message.as_str() {
        text::NUL => text::NUL,
        _ => "no call",
    };
    Some(format!(
        "line {}, column {} is {what}",
        first.line, first.column
    ))
}
