//! The answers that a text expects.

use super::failure::Status;
use super::input::Input;
use super::output;
use keylock::answer::Answer;

/// Tells which expected answers aren't given.
pub fn compare(input: &Input, answers: &[Answer]) -> Status {
    let Input { name, text, .. } = input;
    let Some(text) = text else {
        return Status::Success;
    };
    let mut report = String::new();
    let mut missed = 0;
    for (line, answer) in text.lines.iter().zip(answers) {
        if let Some(expected) = line.expected
            && expected != *answer
        {
            missed += 1;
            let number = line.number;
            report +=
                &format!("{name}:{number}: expected {expected}, the guard answers {answer}\n");
        }
    }
    let summary = match (text.expected(), missed) {
        (0, _) => return Status::Success,
        (1, 0) => "1 expected answer, given".to_string(),
        (all, 0) => format!("{all} expected answers, all given"),
        (1, _) => "1 expected answer, not given".to_string(),
        (all, missed) => format!("{all} expected answers, {missed} not given"),
    };
    output::complain(&format!("{report}{name}: {summary}\n"));
    match missed {
        0 => Status::Success,
        _ => Status::Input,
    }
}
