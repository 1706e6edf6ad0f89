//! What follows `keylock key`: a file, a thread and a key.

use super::{Command, Rest, shown};
use crate::cli::failure::Failure;
use crate::cli::source::Source;
use rotundaaloe::formula::Key;
use rotundaaloe::{Defined, Segment, Thread, User};
use std::ffi::OsStr;
use std::os::unix::ffi::OsStrExt;

impl Rest {
    pub fn key(mut self) -> Result<Command, Failure> {
        let [file, thread, key] = self.three("a file, a thread and a key")?;
        let thread = self.number("THREAD", &thread, u16::MAX)?;
        Ok(Command::Key {
            source: Source::of(Some(file)),
            thread: Thread(thread),
            key: self.key_argument(&key)?,
        })
    }

    /// A key as a lock's text has it.
    fn key_argument(&self, argument: &OsStr) -> Result<Key, Failure> {
        let (letter, digits) = match argument.as_bytes() {
            [letter, digits @ ..] if is_number(digits) => (letter, digits),
            _ => return Err(self.no_key(argument, SPELLING)),
        };
        let key: fn(u16) -> Key = match letter {
            b'U' => |number| Key::User(User(number)),
            b'R' => |number| Key::Thread(Thread(number)),
            b'S' => |number| Key::Segment(Segment(number)),
            b'D' => |number| Key::Defined(Defined(number)),
            b'u' | b'r' | b's' | b'd' => return Err(self.no_key(argument, CAPITAL)),
            _ => return Err(self.no_key(argument, SPELLING)),
        };
        let number = self.number("KEY", OsStr::from_bytes(digits), u16::MAX)?;
        Ok(key(number))
    }

    fn no_key(&self, argument: &OsStr, why: &str) -> Failure {
        self.wrong(&format!("KEY: {} is no key: {why}", shown(argument)))
    }
}

const SPELLING: &str = "one is U, R, S or D and a number, as S0";
const CAPITAL: &str = "its letter is a capital one";

fn is_number(digits: &[u8]) -> bool {
    !digits.is_empty() && digits.iter().all(u8::is_ascii_digit)
}
