//! The command `keylock`: text journals to journals and back, replayed and
//! explained.

mod cli;

use std::process::ExitCode;

fn main() -> ExitCode {
    cli::main(std::env::args_os().skip(1))
}
