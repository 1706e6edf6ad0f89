//! A directory for files that a measurement needs.

use std::path::{Path, PathBuf};
use std::{env, fs, io, process};

/// A new directory among the temporary ones, gone with its files when dropped.
pub struct Directory {
    path: PathBuf,
}

impl Directory {
    pub fn new(name: &str) -> io::Result<Directory> {
        let path = env::temp_dir().join(format!("rotundaaloe-{name}-{}", process::id()));
        fs::create_dir(&path)?;
        Ok(Directory { path })
    }

    pub fn path(&self) -> &Path {
        &self.path
    }
}

impl Drop for Directory {
    fn drop(&mut self) {
        // Files left among the temporary ones harm nobody.
        let _ = fs::remove_dir_all(&self.path);
    }
}
