//! `keylock run`: the guard's answers, as the office program prints them.

use super::colour;
use super::expected;
use super::failure::{Failure, Status};
use super::input::Input;
use super::output::Target;
use super::source::Source;
use keylock::answer::Answer;
use keylock::progress::Progress;
use keylock::text::Text;
use rotundaaloe::{Guard, Journal};

pub fn run(sources: &[Source]) -> Result<Status, Failure> {
    let inputs = read_all(sources)?;
    let colour = colour::wanted(&Target::StandardOutput);
    let mut status = Status::Success;
    for input in &inputs {
        let answers = answers(&input.journal);
        let mut printed = String::new();
        if inputs.len() > 1 {
            printed += &format!("== {} ==\n", input.name);
        }
        printed += &lines(&input.journal, &answers, colour);
        Target::StandardOutput.write(printed.as_bytes())?;
        status = status.max(expected::compare(input, &answers));
    }
    Ok(status)
}

/// Nothing is run where one of the inputs is at fault. Until then what is printed
/// of each is kept, and no more.
fn read_all(sources: &[Source]) -> Result<Vec<Input>, Failure> {
    let mut inputs = Vec::new();
    let mut status = Status::Success;
    let mut report = String::new();
    for source in sources {
        match Input::read(source, &Target::StandardOutput) {
            Ok(input) => inputs.push(Input {
                text: input.text.map(Text::without_comments),
                ..input
            }),
            Err(failure) => {
                status = status.max(failure.status);
                report += &failure.report;
            }
        }
    }
    match status {
        Status::Success => Ok(inputs),
        _ => Err(Failure { status, report }),
    }
}

fn answers(journal: &Journal) -> Vec<Answer> {
    let mut guard = Guard::new();
    let mut progress = Progress::new(journal.records().count(), "records");
    let mut answers = Vec::new();
    for record in journal.records() {
        answers.push(guard.call(record).into());
        progress.at(answers.len());
    }
    answers
}

fn lines(journal: &Journal, answers: &[Answer], colour: bool) -> String {
    let mut lines = String::new();
    for (place, (record, answer)) in journal.records().zip(answers).enumerate() {
        let letter = char::from(record.letter);
        let [start, end] = match (colour, answer) {
            (false, _) => ["", ""],
            (true, Answer::Ok(_)) => ["\x1b[32m", "\x1b[0m"],
            (true, Answer::No { .. }) => ["\x1b[31m", "\x1b[0m"],
        };
        lines += &format!("{place} {letter} {start}{answer}{end}\n");
    }
    lines
}
