//! What follows a question about where a journal leads: its file, and two things
//! that are asked about.

use super::{Rest, shown};
use crate::cli::failure::Failure;
use std::ffi::{OsStr, OsString};
use std::fmt::Display;
use std::str::FromStr;

impl Rest {
    /// The three arguments, which these words name.
    pub fn three(&mut self, words: &str) -> Result<[OsString; 3], Failure> {
        let name = self.topic.name();
        if let Some(more) = self.files.get(3) {
            let more = shown(more);
            return Err(self.wrong(&format!("{name} takes {words}, {more} is one more")));
        }
        let files = std::mem::take(&mut self.files);
        <[OsString; 3]>::try_from(files).map_err(|_| self.wrong(&format!("{name} needs {words}")))
    }

    /// A number as a text journal has it.
    pub fn number<T: FromStr + Display>(
        &self,
        name: &str,
        argument: &OsStr,
        most: T,
    ) -> Result<T, Failure> {
        let digits = argument.to_str().unwrap_or_default();
        let wrong = if digits.is_empty() || !digits.bytes().all(|digit| digit.is_ascii_digit()) {
            format!("{} is no number", shown(argument))
        } else if digits.starts_with('0') && digits != "0" {
            format!("leading zero in {digits}")
        } else {
            match digits.parse() {
                Ok(number) => return Ok(number),
                Err(_) => format!("{digits} is above {most}"),
            }
        };
        Err(self.wrong(&format!("{name}: {wrong}")))
    }
}
