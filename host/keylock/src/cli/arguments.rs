//! What the command is asked for.

mod key;
mod locks;
mod question;

use super::failure::Failure;
use super::output::Target;
use super::source::Source;
use keylock::shown::escaped;
use rotundaaloe::formula::Key;
use rotundaaloe::{Segment, Thread, User};
use std::ffi::{OsStr, OsString};
use std::os::unix::ffi::OsStrExt;

#[derive(Clone, Copy, Debug, PartialEq, Eq)]
pub enum Topic {
    Asm,
    Dis,
    Run,
    Trace,
    Locks,
    Key,
    State,
}

impl Topic {
    pub const ALL: [Topic; 7] = [
        Topic::Asm,
        Topic::Dis,
        Topic::Run,
        Topic::Trace,
        Topic::Locks,
        Topic::Key,
        Topic::State,
    ];

    pub fn name(self) -> &'static str {
        match self {
            Topic::Asm => "asm",
            Topic::Dis => "dis",
            Topic::Run => "run",
            Topic::Trace => "trace",
            Topic::Locks => "locks",
            Topic::Key => "key",
            Topic::State => "state",
        }
    }

    fn of(name: &OsStr) -> Option<Topic> {
        Topic::ALL.into_iter().find(|topic| topic.name() == name)
    }
}

pub enum Command {
    Help(Option<Topic>),
    Version,
    Asm {
        source: Source,
        target: Target,
    },
    Dis {
        source: Source,
        target: Target,
    },
    Run {
        sources: Vec<Source>,
    },
    Trace {
        html: bool,
        source: Source,
        target: Target,
    },
    Locks {
        source: Source,
        user: User,
        segment: Segment,
        /// How many rows are lent, enough if it is left out.
        rows: Option<usize>,
    },
    Key {
        source: Source,
        thread: Thread,
        key: Key,
    },
    State {
        source: Source,
        target: Target,
    },
}

pub fn parse(mut arguments: impl Iterator<Item = OsString>) -> Result<Command, Failure> {
    let Some(first) = arguments.next() else {
        return Err(Failure::usage(
            None,
            "what to do? asm, dis, run, trace, locks, key or state",
        ));
    };
    match first.as_bytes() {
        b"-h" | b"--help" => Ok(Command::Help(None)),
        b"-V" | b"--version" => Ok(Command::Version),
        b"help" => help_about(arguments.next()),
        [b'-', ..] => Err(unknown_option(None, &first)),
        _ => match Topic::of(&first) {
            Some(topic) => subcommand(topic, arguments),
            None => Err(unknown_subcommand(&first)),
        },
    }
}

fn help_about(name: Option<OsString>) -> Result<Command, Failure> {
    let Some(name) = name else {
        return Ok(Command::Help(None));
    };
    match Topic::of(&name) {
        Some(topic) => Ok(Command::Help(Some(topic))),
        None => Err(unknown_subcommand(&name)),
    }
}

/// What follows a subcommand.
struct Rest {
    topic: Topic,
    files: Vec<OsString>,
    output: Option<OsString>,
    html: bool,
    rows: Option<OsString>,
}

fn subcommand(
    topic: Topic,
    mut arguments: impl Iterator<Item = OsString>,
) -> Result<Command, Failure> {
    let mut rest = Rest {
        topic,
        files: Vec::new(),
        output: None,
        html: false,
        rows: None,
    };
    while let Some(argument) = arguments.next() {
        match argument.as_bytes() {
            b"--" => {
                rest.files.extend(arguments);
                break;
            }
            b"-h" | b"--help" => return Ok(Command::Help(Some(topic))),
            b"-V" | b"--version" => return Ok(Command::Version),
            b"--html" if topic == Topic::Trace => rest.html = true,
            [b'-', _, ..] => rest.option(&argument, &mut arguments)?,
            _ => rest.files.push(argument),
        }
    }
    rest.command()
}

impl Rest {
    fn wrong(&self, message: &str) -> Failure {
        Failure::usage(Some(self.topic), message)
    }

    /// An option that a value belongs to.
    fn option(
        &mut self,
        option: &OsStr,
        arguments: &mut impl Iterator<Item = OsString>,
    ) -> Result<(), Failure> {
        match self.topic {
            Topic::Run | Topic::Key => Err(unknown_option(Some(self.topic), option)),
            Topic::Locks => self.rows_option(option, arguments),
            Topic::Asm | Topic::Dis | Topic::Trace | Topic::State => {
                self.output_option(option, arguments)
            }
        }
    }

    fn output_option(
        &mut self,
        option: &OsStr,
        arguments: &mut impl Iterator<Item = OsString>,
    ) -> Result<(), Failure> {
        let output = match option.as_bytes() {
            b"-o" | b"--output" => Some(arguments.next().unwrap_or_default()),
            [b'-', b'o', name @ ..] => Some(OsStr::from_bytes(name).to_owned()),
            long => long
                .strip_prefix(b"--output=")
                .map(|name| OsStr::from_bytes(name).to_owned()),
        };
        let output = output.ok_or_else(|| unknown_option(Some(self.topic), option))?;
        if output.is_empty() {
            return Err(self.wrong("-o needs the name of a file"));
        }
        match self.output.replace(output) {
            None => Ok(()),
            Some(_) => Err(self.wrong("-o is given twice")),
        }
    }

    fn command(self) -> Result<Command, Failure> {
        let html = self.html;
        match self.topic {
            Topic::Run => self.run(),
            Topic::Locks => self.locks(),
            Topic::Key => self.key(),
            Topic::Asm => self.one_file(|source, target| Command::Asm { source, target }),
            Topic::Dis => self.one_file(|source, target| Command::Dis { source, target }),
            Topic::State => self.one_file(|source, target| Command::State { source, target }),
            Topic::Trace => self.one_file(|source, target| Command::Trace {
                html,
                source,
                target,
            }),
        }
    }

    /// One file is read, and one is written.
    fn one_file(
        mut self,
        command: impl FnOnce(Source, Target) -> Command,
    ) -> Result<Command, Failure> {
        if self.files.len() > 1 {
            let second = shown(&self.files[1]);
            let message = format!("{} takes one file, {second} is one more", self.topic.name());
            return Err(self.wrong(&message));
        }
        let source = Source::of(self.files.pop());
        Ok(command(source, Target::of(self.output)))
    }

    fn run(mut self) -> Result<Command, Failure> {
        let files = std::mem::take(&mut self.files);
        if files.iter().filter(|file| *file == "-").count() > 1 {
            return Err(self.wrong("standard input can be read once only"));
        }
        let sources = match files.is_empty() {
            true => vec![Source::StandardInput],
            false => files
                .into_iter()
                .map(|file| Source::of(Some(file)))
                .collect(),
        };
        Ok(Command::Run { sources })
    }
}

fn shown(argument: &OsStr) -> String {
    format!("'{}'", escaped(&argument.to_string_lossy()))
}

fn unknown_option(topic: Option<Topic>, option: &OsStr) -> Failure {
    Failure::usage(topic, format!("unknown option {}", shown(option)))
}

fn unknown_subcommand(name: &OsStr) -> Failure {
    let word = name.to_string_lossy().to_lowercase();
    let letters = word.chars().count();
    let near = Topic::ALL
        .into_iter()
        .map(|topic| (distance(&word, topic.name()), topic.name()))
        .min()
        .filter(|(distance, name)| *distance <= 2 && *distance < name.len().min(letters));
    let hint = near.map_or(String::new(), |(_, name)| format!("; is '{name}' meant?"));
    let message = format!("no subcommand is called {}{hint}", shown(name));
    Failure::usage(None, message)
}

/// How many letters to put in, take out or change, to come from one word to the
/// other.
fn distance(from: &str, to: &str) -> usize {
    let to: Vec<char> = to.chars().collect();
    let mut row: Vec<usize> = (0..=to.len()).collect();
    for (above, letter) in from.chars().take(32).enumerate() {
        let mut diagonal = row[0];
        row[0] = above + 1;
        for (place, other) in to.iter().enumerate() {
            let changed = diagonal + usize::from(letter != *other);
            diagonal = row[place + 1];
            row[place + 1] = changed.min(diagonal + 1).min(row[place] + 1);
        }
    }
    row[to.len()]
}
