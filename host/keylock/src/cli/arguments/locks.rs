//! What follows `keylock locks`: a file, a user and a segment, and how many rows
//! are lent.

use super::{Command, Rest, unknown_option};
use crate::cli::failure::Failure;
use crate::cli::source::Source;
use rotundaaloe::{Segment, User};
use std::ffi::{OsStr, OsString};
use std::os::unix::ffi::OsStrExt;

impl Rest {
    pub fn rows_option(
        &mut self,
        option: &OsStr,
        arguments: &mut impl Iterator<Item = OsString>,
    ) -> Result<(), Failure> {
        let rows = match option.as_bytes() {
            b"--rows" => Some(arguments.next().unwrap_or_default()),
            long => long
                .strip_prefix(b"--rows=")
                .map(|rows| OsStr::from_bytes(rows).to_owned()),
        };
        let rows = rows.ok_or_else(|| unknown_option(Some(self.topic), option))?;
        if rows.is_empty() {
            return Err(self.wrong("--rows needs a number"));
        }
        match self.rows.replace(rows) {
            None => Ok(()),
            Some(_) => Err(self.wrong("--rows is given twice")),
        }
    }

    pub fn locks(mut self) -> Result<Command, Failure> {
        let [file, user, segment] = self.three("a file, a user and a segment")?;
        let user = self.number("USER", &user, u16::MAX)?;
        let segment = self.number("SEGMENT", &segment, u16::MAX)?;
        let rows = self.rows.as_deref();
        let rows = rows.map(|rows| self.number("--rows", rows, usize::MAX));
        Ok(Command::Locks {
            source: Source::of(Some(file)),
            user: User(user),
            segment: Segment(segment),
            rows: rows.transpose()?,
        })
    }
}
