//! The command's parts: arguments, input, output, and a file for each
//! subcommand.

mod arguments;
mod asm;
mod colour;
mod dis;
mod expected;
mod failure;
mod help;
mod input;
mod key;
mod locks;
mod mistakes;
mod output;
mod run;
mod source;
mod standard;
mod state;
mod trace;

use arguments::Command;
use failure::{Failure, Status};
use output::Target;
use std::ffi::OsString;
use std::process::ExitCode;

pub fn main(arguments: impl Iterator<Item = OsString>) -> ExitCode {
    let status = arguments::parse(arguments).and_then(obey);
    let status = status.unwrap_or_else(|failure| {
        output::complain(&failure.report);
        failure.status
    });
    ExitCode::from(status as u8)
}

fn obey(command: Command) -> Result<Status, Failure> {
    match command {
        Command::Help(topic) => show(&help::text(topic)),
        Command::Version => show(concat!("keylock ", env!("CARGO_PKG_VERSION"), "\n")),
        Command::Asm { source, target } => asm::asm(&source, &target),
        Command::Dis { source, target } => dis::dis(&source, &target),
        Command::Run { sources } => run::run(&sources),
        Command::Locks {
            source,
            user,
            segment,
            rows,
        } => locks::locks(&source, user, segment, rows),
        Command::Key {
            source,
            thread,
            key,
        } => key::key(&source, thread, key),
        Command::State { source, target } => state::state(&source, &target),
        Command::Trace {
            html,
            source,
            target,
        } => trace::trace(html, &source, &target),
    }
}

fn show(text: &str) -> Result<Status, Failure> {
    Target::StandardOutput.write(text.as_bytes())?;
    Ok(Status::Success)
}
