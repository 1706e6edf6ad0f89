//! Writing: all or nothing.

use super::failure::{Failure, Status};
use super::source::Name;
use super::standard;
use std::ffi::OsString;
use std::fs::{self, File, Metadata, OpenOptions, Permissions};
use std::io::{self, BufWriter, ErrorKind, Write};
use std::os::unix::fs::MetadataExt;
use std::path::{Path, PathBuf};
use std::process;

pub enum Target {
    StandardOutput,
    File(PathBuf),
}

impl Target {
    /// Standard output where there is no name, or `-`.
    pub fn of(name: Option<OsString>) -> Target {
        match name {
            Some(name) if name != "-" => Target::File(name.into()),
            _ => Target::StandardOutput,
        }
    }

    /// The input isn't written over, by whatever name it came: a text's comments
    /// would be lost.
    pub fn must_differ_from(&self, input: &File) -> Result<(), Failure> {
        let (Ok(old), Ok(read)) = (self.metadata(), input.metadata()) else {
            return Ok(());
        };
        match old.is_file() && (old.dev(), old.ino()) == (read.dev(), read.ino()) {
            true => Err(Failure {
                status: Status::Use,
                report: format!(
                    "keylock: {} is the input: write to another file\n",
                    self.name()
                ),
            }),
            false => Ok(()),
        }
    }

    pub fn write(&self, bytes: &[u8]) -> Result<(), Failure> {
        self.write_by(|out| out.write_all(bytes))
    }

    /// What a function writes, as it comes.
    pub fn write_by(&self, writing: impl Writing) -> Result<(), Failure> {
        let written = match self {
            Target::StandardOutput => to_stdout(writing),
            Target::File(path) => to_file(path, writing),
        };
        written.map_err(|error| Failure::device(&self.name(), &error))
    }

    fn name(&self) -> Name {
        Name(match self {
            Target::StandardOutput => "standard output".to_string(),
            Target::File(path) => path.to_string_lossy().into_owned(),
        })
    }

    fn metadata(&self) -> io::Result<Metadata> {
        match self {
            Target::StandardOutput => standard::output()?.metadata(),
            Target::File(path) => fs::metadata(path),
        }
    }
}

/// A function that writes.
pub trait Writing: FnOnce(&mut dyn Write) -> io::Result<()> {}

impl<F: FnOnce(&mut dyn Write) -> io::Result<()>> Writing for F {}

/// To standard error. Where that fails there is nobody left to tell.
pub fn complain(report: &str) {
    let _ = io::stderr().write_all(report.as_bytes());
}

/// A reader that has gone away has read enough.
fn to_stdout(writing: impl Writing) -> io::Result<()> {
    match through_buffer(&standard::output()?, writing) {
        Err(error) if error.kind() == ErrorKind::BrokenPipe => Ok(()),
        other => other,
    }
}

fn through_buffer(file: &File, writing: impl Writing) -> io::Result<()> {
    let mut buffer = BufWriter::new(file);
    writing(&mut buffer)?;
    buffer.flush()
}

/// Files are replaced whole; devices and pipes are written to.
fn to_file(path: &Path, writing: impl Writing) -> io::Result<()> {
    let old = match fs::metadata(path) {
        Err(error) if error.kind() == ErrorKind::NotFound => {
            return replace(&destination(path)?, None, writing);
        }
        old => old?,
    };
    // A file that may not be written to isn't replaced either.
    let file = OpenOptions::new().write(true).open(path)?;
    match old.is_file() {
        true => replace(&fs::canonicalize(path)?, Some(old.permissions()), writing),
        false => through_buffer(&file, writing),
    }
}

/// Where links lead to that isn't there yet.
fn destination(path: &Path) -> io::Result<PathBuf> {
    /// As many as the system follows.
    const MOST_LINKS: usize = 40;
    let mut path = path.to_path_buf();
    for _ in 0..MOST_LINKS {
        match fs::read_link(&path) {
            Ok(link) => path = directory(&path).join(link),
            Err(_) => return Ok(path),
        }
    }
    Err(io::Error::other("too many links"))
}

fn directory(path: &Path) -> &Path {
    match path.parent() {
        Some(parent) if parent != Path::new("") => parent,
        _ => Path::new("."),
    }
}

/// By a new file beside it and a rename, so that an old one stays whole if
/// something fails.
fn replace(path: &Path, permissions: Option<Permissions>, writing: impl Writing) -> io::Result<()> {
    let (temporary, file) = new_file(directory(path))?;
    let written = fill(&file, permissions, writing).and_then(|()| fs::rename(&temporary, path));
    if written.is_err() {
        // The first error is the one to tell.
        let _ = fs::remove_file(&temporary);
    }
    written
}

fn new_file(directory: &Path) -> io::Result<(PathBuf, File)> {
    let mut number = 0;
    loop {
        let path = directory.join(format!(".keylock-{}-{number}.tmp", process::id()));
        match File::create_new(&path) {
            Err(error) if error.kind() == ErrorKind::AlreadyExists => number += 1,
            file => return Ok((path, file?)),
        }
    }
}

fn fill(file: &File, permissions: Option<Permissions>, writing: impl Writing) -> io::Result<()> {
    if let Some(permissions) = permissions {
        file.set_permissions(permissions)?;
    }
    through_buffer(file, writing)?;
    file.sync_all()
}
