//! Standard input and output as the caller left them.
//!
//! The library's own handles take a stream that isn't open for one without end or
//! content. A file tells; but before `main` the library opens `/dev/null` for each
//! stream that is closed, so those are looked for earlier.

use std::fs::File;
use std::io;
use std::os::fd::{AsFd, BorrowedFd};
use std::sync::atomic::{AtomicBool, Ordering};

const INPUT: usize = 0;
const OUTPUT: usize = 1;
/// The system's error for a stream that isn't open.
const NOT_OPEN: i32 = 9;

/// Whether standard input and output were closed when the command began.
static CLOSED: [AtomicBool; 2] = [const { AtomicBool::new(false) }; 2];

pub fn input() -> io::Result<File> {
    file(INPUT, io::stdin().as_fd())
}

pub fn output() -> io::Result<File> {
    file(OUTPUT, io::stdout().as_fd())
}

fn file(stream: usize, descriptor: BorrowedFd) -> io::Result<File> {
    match CLOSED[stream].load(Ordering::Relaxed) {
        true => Err(io::Error::from_raw_os_error(NOT_OPEN)),
        false => Ok(descriptor.try_clone_to_owned()?.into()),
    }
}

/// What the program loader calls before `main`.
#[cfg(target_os = "linux")]
#[used]
#[unsafe(link_section = ".init_array")]
static BEFORE_MAIN: extern "C" fn() = look;

#[cfg(target_os = "linux")]
extern "C" fn look() {
    use std::ffi::c_int;
    const GET_FLAGS: c_int = 1;
    unsafe extern "C" {
        fn fcntl(descriptor: c_int, command: c_int, ...) -> c_int;
    }
    for (stream, closed) in CLOSED.iter().enumerate() {
        // SAFETY: this command takes no more arguments, and changes nothing.
        let flags = unsafe { fcntl(stream as c_int, GET_FLAGS) };
        closed.store(flags < 0, Ordering::Relaxed);
    }
}
