//! Builds programs in C as a host does.

use std::io::Write;
use std::path::{Path, PathBuf};
use std::process::{Command, Output, Stdio};
use std::{env, fs};

/// What a careful host compiles with.
pub const WARNINGS: [&str; 6] = [
    "-Wall",
    "-Wextra",
    "-Wconversion",
    "-Wsign-conversion",
    "-Wcast-qual",
    "-pedantic",
];

/// The top of the repository.
pub fn top() -> PathBuf {
    Path::new(env!("CARGO_MANIFEST_DIR")).join("../..")
}

pub fn headers() -> PathBuf {
    top().join("host/include")
}

/// The proved library, installed or as it was built.
pub fn library() -> PathBuf {
    let directory = match env::var_os("ROTUNDAALOE_LIB_DIR") {
        Some(directory) => PathBuf::from(directory),
        None => top().join("target/staticlib"),
    };
    let installed = directory.join("librotundaaloe.a");
    match installed.exists() {
        true => installed,
        false => directory.join("libabi.a"),
    }
}

/// An empty directory for one test's files.
pub fn scratch(name: &str) -> PathBuf {
    let directory = Path::new(env!("CARGO_TARGET_TMPDIR")).join(name);
    if directory.exists() {
        fs::remove_dir_all(&directory).expect("a directory of an earlier test");
    }
    fs::create_dir_all(&directory).expect("a new directory");
    directory
}

/// What a program that succeeds prints, while it complains of nothing.
#[track_caller]
pub fn printed(output: Output) -> Vec<u8> {
    let complaint = String::from_utf8_lossy(&output.stderr).into_owned();
    assert!(output.status.success(), "{}: {complaint}", output.status);
    assert_eq!(complaint, "");
    output.stdout
}

#[track_caller]
pub fn printed_text(output: Output) -> String {
    String::from_utf8(printed(output)).expect("text")
}

/// What a command does with bytes on its standard input.
pub fn fed(command: &mut Command, input: &[u8]) -> Output {
    command.stdin(Stdio::piped());
    command.stdout(Stdio::piped()).stderr(Stdio::piped());
    let mut child = command.spawn().expect("it starts");
    let mut stdin = child.stdin.take().expect("a pipe");
    stdin.write_all(input).expect("it reads");
    drop(stdin);
    child.wait_with_output().expect("it ends")
}

/// Builds a program without a warning, in a test's directory, and answers where
/// it is.
#[track_caller]
pub fn built(source: &Path, directory: &Path) -> PathBuf {
    let program = directory.join(source.file_stem().expect("a name"));
    let mut compiler = Command::new("cc");
    compiler.args(["-std=c99", "-O2", "-Werror"]).args(WARNINGS);
    compiler.arg("-I").arg(headers());
    compiler.arg(source).arg(library()).arg("-o").arg(&program);
    assert_eq!(printed_text(compiler.output().expect("a C compiler")), "");
    program
}

/// A program whose source stands here.
#[track_caller]
pub fn built_here(name: &str, directory: &Path) -> PathBuf {
    let here = Path::new(env!("CARGO_MANIFEST_DIR")).join("tests/c");
    built(&here.join(name), directory)
}

/// What a compiler says of a text, with the header at hand.
pub fn checked(compiler: &str, arguments: &[&str], text: &str) -> Output {
    let mut command = Command::new(compiler);
    command.args(arguments).args(WARNINGS);
    command.arg("-I").arg(headers());
    command.args(["-c", "-o", "/dev/null", "-"]);
    fed(&mut command, text.as_bytes())
}

/// Whether a command is on the path. Where it isn't, the test says so.
pub fn is_here(command: &str) -> bool {
    let here = Command::new(command).arg("--version").output().is_ok();
    if !here {
        eprintln!("{command} is not on this machine: nothing is tried with it");
    }
    here
}
