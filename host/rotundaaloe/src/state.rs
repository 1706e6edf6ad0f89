//! A state as a file: a guard is saved, and loaded when the host starts again.
//!
//! | Bytes | What |
//! |---|---|
//! | 4 | the mark, `KLS` and a line feed |
//! | 2 | the layout, 1 |
//! | 4 | how many bytes of cells follow, 37,920 |
//! | 37,920 | the cells: registry, makers, segments, locks, threads |
//! | 4 | the CRC-32 of all bytes before, that of zip and PNG |
//!
//! Numbers have their low byte first, on every machine, so a file that C wrote
//! is read in Rust. The checksum finds what a disk or a cable did; against people
//! it is no protection: look after the file.

mod checksum;
mod file;
mod layout;

use crate::guard::Guard;
use crate::raw::Cells;
use crate::refusal;
use layout::{get_cells, put_cells};
use std::error::Error;
use std::fmt;
use std::io;
use std::path::Path;

/// What a state file begins with.
pub const MARK: &[u8; 4] = b"KLS\n";
/// The layout of the cells.
pub const LAYOUT: u16 = 1;
/// The bytes before the cells: the mark, the layout and the length.
const HEAD_BYTES: usize = 10;
const CHECKSUM_BYTES: usize = 4;
/// The bytes of a state file.
pub const FILE_BYTES: usize = HEAD_BYTES + Cells::SIZE + CHECKSUM_BYTES;

impl Guard {
    /// The bytes of a state file.
    pub fn to_bytes(&self) -> Vec<u8> {
        let mut bytes = Vec::with_capacity(FILE_BYTES);
        bytes.extend(MARK);
        bytes.extend(LAYOUT.to_le_bytes());
        bytes.extend((Cells::SIZE as u32).to_le_bytes());
        put_cells(self.cells(), &mut bytes);
        bytes.extend(checksum::crc32(&bytes).to_le_bytes());
        bytes
    }

    /// The guard in the state of these bytes, if they are a state file, the whole
    /// of it and nothing more. What is promised of lists of calls is promised of
    /// those from an empty state, so of the files that a guard from there saved.
    pub fn from_bytes(bytes: &[u8]) -> Result<Guard, refusal::Load> {
        use refusal::Load::{Broken, NotState, OtherLayout};
        let rest = bytes.strip_prefix(MARK).ok_or(NotState)?;
        let (layout, rest) = rest.split_first_chunk().ok_or(Broken)?;
        if u16::from_le_bytes(*layout) != LAYOUT {
            return Err(OtherLayout);
        }
        let (before, sum) = bytes.split_last_chunk().ok_or(Broken)?;
        let (length, _) = rest.split_first_chunk().ok_or(Broken)?;
        let is_whole = bytes.len() == FILE_BYTES
            && u32::from_le_bytes(*length) as usize == Cells::SIZE
            && u32::from_le_bytes(*sum) == checksum::crc32(before);
        match is_whole {
            true => Ok(Guard::from_cells(get_cells(&before[HEAD_BYTES..]))),
            false => Err(Broken),
        }
    }

    /// Writes the state file, whole or not at all: a new file beside it takes its
    /// place. A link is followed, and what is not a plain file isn't replaced. A
    /// new file is for its owner alone, and one that is replaced keeps its
    /// permissions.
    pub fn save(&self, path: impl AsRef<Path>) -> io::Result<()> {
        file::replace(path.as_ref(), &self.to_bytes())
    }

    /// The guard in the state of this file.
    pub fn load(path: impl AsRef<Path>) -> Result<Guard, LoadError> {
        // One more byte than a state file has shows that it is longer.
        let bytes = file::read(path.as_ref(), FILE_BYTES + 1).map_err(LoadError::Device)?;
        Guard::from_bytes(&bytes).map_err(LoadError::Refused)
    }
}

/// Why a state isn't loaded from a file.
#[derive(Debug)]
pub enum LoadError {
    /// The file can't be read.
    Device(io::Error),
    /// It is no state file.
    Refused(refusal::Load),
}

impl fmt::Display for LoadError {
    fn fmt(&self, f: &mut fmt::Formatter) -> fmt::Result {
        match self {
            LoadError::Device(error) => error.fmt(f),
            LoadError::Refused(refusal) => refusal.fmt(f),
        }
    }
}

impl Error for LoadError {}
