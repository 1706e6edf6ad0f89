//! Where the input comes from.

use super::failure::Failure;
use super::output::Target;
use super::standard;
use keylock::shown::escaped;
use std::ffi::OsString;
use std::fmt;
use std::fs::File;
use std::io::{self, Read};
use std::path::PathBuf;

/// The most bytes that are read: enough for a full journal with a thousand bytes
/// of comment on each call, and an end for inputs that have none.
const MOST_BYTES: usize = 8 << 20;

pub enum Source {
    StandardInput,
    File(PathBuf),
}

impl Source {
    /// Standard input where there is no name, or `-`.
    pub fn of(name: Option<OsString>) -> Source {
        match name {
            Some(name) if name != "-" => Source::File(name.into()),
            _ => Source::StandardInput,
        }
    }

    pub fn name(&self) -> Name {
        Name(match self {
            Source::StandardInput => "standard input".to_string(),
            Source::File(path) => path.to_string_lossy().into_owned(),
        })
    }

    /// What a page about it is called.
    pub fn title(&self) -> String {
        match self {
            Source::StandardInput => "A journal".to_string(),
            Source::File(path) => {
                let name = path.file_stem().unwrap_or(path.as_os_str());
                name.to_string_lossy().into_owned()
            }
        }
    }

    /// All of its bytes, where the target is something else.
    pub fn read(&self, target: &Target) -> Result<Vec<u8>, Failure> {
        let bytes = self.read_beyond(MOST_BYTES, target)?;
        if bytes.len() > MOST_BYTES {
            let message = "over 8 MiB: no journal, nor the text of one";
            return Err(Failure::input(&self.name(), message));
        }
        Ok(bytes)
    }

    /// Its bytes, but of those after the first so many only one, which shows that
    /// it goes on.
    pub fn read_beyond(&self, most: usize, target: &Target) -> Result<Vec<u8>, Failure> {
        let failed = |error| Failure::device(&self.name(), &error);
        let file = self.open().map_err(failed)?;
        target.must_differ_from(&file)?;
        let mut bytes = Vec::new();
        let mut file = file.take(most as u64 + 1);
        file.read_to_end(&mut bytes).map_err(failed)?;
        Ok(bytes)
    }

    fn open(&self) -> io::Result<File> {
        match self {
            Source::StandardInput => standard::input(),
            Source::File(path) => File::open(path),
        }
    }
}

/// What messages call a file.
#[derive(Clone)]
pub struct Name(pub String);

impl fmt::Display for Name {
    fn fmt(&self, f: &mut fmt::Formatter) -> fmt::Result {
        f.write_str(&escaped(&self.0))
    }
}
