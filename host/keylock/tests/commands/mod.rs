//! Runs the command.

use std::fs;
use std::io::Write;
use std::path::{Path, PathBuf};
use std::process::{Child, Command, Stdio};

/// Document 01's first worked example, with document 02's P4, and what the office
/// program prints for it.
pub const TRIAL: &str = "\
U
S 0
S 0
N 0 0
N 0 0
N 0 1
L 0 0 1 U0
L 0 1 1 U0
L 0 2 4 S0&S1
C 0 0
C 0 1
C 1 1
A 0 2 4
A 1 2 4
R 0
A 0 2 4
";
pub const OFFICE_LINES: &str = "\
0 U ok 0
1 S ok 0
2 S ok 1
3 N ok 0
4 N ok 1
5 N ok 2
6 L ok 0
7 L ok 1
8 L ok 2
9 C ok 0
10 C ok 1
11 C ok 1
12 A ok 2
13 A no 15 0
14 R ok 1
15 A no 15 0
";

/// The journal of a text with one U.
pub const ONE_USER: &[u8] = b"KLD\x02\0\x01\0U\0\0\0\0\0\0\0\0";

/// What a run of the command left.
pub struct Ran {
    pub status: i32,
    pub output: Vec<u8>,
    /// Standard error.
    pub complaint: String,
}

impl Ran {
    pub fn printed(&self) -> String {
        String::from_utf8_lossy(&self.output).into_owned()
    }
}

/// Runs the command with these arguments and this standard input.
pub fn keylock(arguments: &[&str], input: &[u8]) -> Ran {
    let mut command = Command::new(env!("CARGO_BIN_EXE_keylock"));
    command.args(arguments).stdin(Stdio::piped());
    let mut child = spawn(&mut command);
    feed(&mut child, input);
    ran(child)
}

/// Runs the command by a shell's line, in which it is `keylock`, in a directory.
pub fn shell(line: &str, directory: &Path) -> Ran {
    let mut shell = Command::new("sh");
    let define = "keylock() { \"$0\" \"$@\"; }";
    let script = format!("{define}\n{line}");
    shell.args(["-c", &script, env!("CARGO_BIN_EXE_keylock")]);
    run(shell.current_dir(directory).stdin(Stdio::null()))
}

/// Runs a command that has its standard input.
pub fn run(command: &mut Command) -> Ran {
    ran(spawn(command))
}

/// Writes the standard input and closes it. A command that doesn't read it may
/// have ended before.
pub fn feed(child: &mut Child, input: &[u8]) {
    let mut stdin = child.stdin.take().expect("a pipe");
    let _ = stdin.write_all(input);
}

pub fn spawn(command: &mut Command) -> Child {
    let command = command.stdout(Stdio::piped()).stderr(Stdio::piped());
    command.spawn().expect("the command starts")
}

/// What a command left that was started.
pub fn ran(child: Child) -> Ran {
    let output = child.wait_with_output().expect("the command ends");
    Ran {
        status: output.status.code().expect("an exit status"),
        output: output.stdout,
        complaint: String::from_utf8_lossy(&output.stderr).into_owned(),
    }
}

/// Nothing on standard output, this status, and this on standard error.
#[track_caller]
pub fn refused(ran: &Ran, status: i32, complaint: &str) {
    assert_eq!(ran.complaint, complaint);
    assert_eq!(ran.printed(), "");
    assert_eq!(ran.status, status);
}

/// Nothing on standard error, and this on standard output.
#[track_caller]
pub fn fine(ran: &Ran, printed: &str) {
    assert_eq!(ran.complaint, "");
    assert_eq!(ran.printed(), printed);
    assert_eq!(ran.status, 0);
}

/// A new directory for a test's files, gone when dropped.
pub struct Directory {
    path: PathBuf,
}

impl Directory {
    pub fn new(name: &str) -> Directory {
        let name = format!("keylock-{name}-{}", std::process::id());
        let path = Path::new(env!("CARGO_TARGET_TMPDIR")).join(name);
        fs::create_dir(&path).expect("a new directory");
        Directory { path }
    }

    pub fn path(&self) -> &Path {
        &self.path
    }

    pub fn file(&self, name: &str) -> String {
        let path = self.path.join(name);
        path.to_str().expect("a plain name").to_string()
    }

    /// The names in it, in order.
    pub fn names(&self) -> Vec<String> {
        let entries = fs::read_dir(&self.path).expect("a directory");
        let names = entries.map(|entry| entry.expect("an entry").file_name());
        let mut names: Vec<String> = names.map(|name| name.to_string_lossy().into()).collect();
        names.sort();
        names
    }
}

impl Drop for Directory {
    fn drop(&mut self) {
        // Files left among the temporary ones harm nobody.
        let _ = fs::remove_dir_all(&self.path);
    }
}
