//! Files that are written whole or not at all.

use std::fs::{self, File, OpenOptions, Permissions};
use std::io::{self, ErrorKind, Read, Write};
use std::os::unix::fs::OpenOptionsExt;
use std::path::{Path, PathBuf};
use std::process;

/// The first bytes of a file, at most so many.
pub fn read(path: &Path, most: usize) -> io::Result<Vec<u8>> {
    let mut bytes = Vec::new();
    File::open(path)?
        .take(most as u64)
        .read_to_end(&mut bytes)?;
    Ok(bytes)
}

/// Puts these bytes in the place of the file, or of the one that a link leads to.
/// Where that fails the old file stays as it was, and nothing is left behind.
pub fn replace(path: &Path, bytes: &[u8]) -> io::Result<()> {
    let (path, permissions) = match fs::symlink_metadata(path) {
        Err(error) if error.kind() == ErrorKind::NotFound => (path.to_owned(), None),
        _ => {
            let path = fs::canonicalize(path)?;
            let permissions = permissions(&path)?;
            (path, Some(permissions))
        }
    };
    let name = match path.parent() {
        Some(parent) if parent != Path::new("") => parent,
        _ => Path::new("."),
    };
    let directory = File::open(name)?;
    let (new, file) = new_file(name)?;
    let written = fill(file, permissions, bytes).and_then(|()| fs::rename(&new, &path));
    if written.is_err() {
        // The first error is the one to tell.
        let _ = fs::remove_file(&new);
    }
    written?;
    // So that the new name is there after a power cut too.
    directory.sync_all()
}

/// Those of a plain file, the only kind that is replaced.
fn permissions(path: &Path) -> io::Result<Permissions> {
    let old = fs::metadata(path)?;
    match old.is_file() {
        true => Ok(old.permissions()),
        false => Err(io::Error::new(ErrorKind::InvalidInput, "not a plain file")),
    }
}

/// A file that nobody had, for its owner alone.
fn new_file(directory: &Path) -> io::Result<(PathBuf, File)> {
    let mut options = OpenOptions::new();
    options.write(true).create_new(true).mode(0o600);
    let mut number = 0;
    loop {
        let path = directory.join(format!(".rotundaaloe-{}-{number}.tmp", process::id()));
        match options.open(&path) {
            Err(error) if error.kind() == ErrorKind::AlreadyExists => number += 1,
            file => return Ok((path, file?)),
        }
    }
}

fn fill(mut file: File, permissions: Option<Permissions>, bytes: &[u8]) -> io::Result<()> {
    if let Some(permissions) = permissions {
        file.set_permissions(permissions)?;
    }
    file.write_all(bytes)?;
    file.sync_all()
}
