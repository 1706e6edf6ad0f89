//! How the command ends.

use super::arguments::Topic;
use super::source::Name;
use std::fmt::Display;
use std::io;

/// The exit status.
#[derive(Clone, Copy, Debug, PartialEq, Eq, PartialOrd, Ord)]
pub enum Status {
    Success = 0,
    /// The input is at fault.
    Input = 1,
    /// It was called wrongly, or couldn't read or write.
    Use = 2,
}

/// Why the command gives up. The report is whole lines for standard error.
#[derive(Debug)]
pub struct Failure {
    pub status: Status,
    pub report: String,
}

impl Failure {
    /// Something in the input is wrong.
    pub fn input(name: &Name, message: impl Display) -> Failure {
        Failure {
            status: Status::Input,
            report: format!("keylock: {name}: {message}\n"),
        }
    }

    /// The command was called wrongly.
    pub fn usage(topic: Option<Topic>, message: impl Display) -> Failure {
        let topic = topic.map_or(String::new(), |topic| format!(" {}", topic.name()));
        Failure {
            status: Status::Use,
            report: format!("keylock: {message}\nSee 'keylock{topic} --help'.\n"),
        }
    }

    /// Reading or writing failed.
    pub fn device(name: &Name, error: &io::Error) -> Failure {
        let error = error.to_string();
        let message = error.split(" (os error").next().unwrap_or(&error);
        Failure {
            status: Status::Use,
            report: format!("keylock: {name}: {message}\n"),
        }
    }
}
