//! The proved office program.

use std::path::{Path, PathBuf};

/// Where it stands: in `target/bin` at the top of the repository, where
/// `host/build` puts it. Panics where it isn't there.
pub fn program() -> PathBuf {
    let program = Path::new(env!("CARGO_MANIFEST_DIR")).join("../../target/bin/replay");
    assert!(
        program.exists(),
        "{} is missing: run `host/build` at the top of the repository",
        program.display()
    );
    program
}
