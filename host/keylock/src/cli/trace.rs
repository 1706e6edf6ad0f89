//! `keylock trace`: a journal explained step by step.

use super::colour;
use super::expected;
use super::failure::{Failure, Status};
use super::input::Input;
use super::output::Target;
use super::source::Source;
use keylock::figures::counted;
use keylock::progress::Progress;
use keylock::steps::{self, Entry, Step};
use keylock::{page, trace};

pub fn trace(html: bool, source: &Source, target: &Target) -> Result<Status, Failure> {
    let input = Input::read(source, target)?;
    let (mut answers, mut differing) = (Vec::new(), 0);
    let steps = explained(&input).inspect(|step| {
        answers.push(step.given());
        differing += usize::from(step.disagreement.is_some());
    });
    let introduction = match &input.text {
        Some(text) => &text.introduction[..],
        None => &[],
    };
    target.write_by(|mut out| match html {
        true => page::write(&source.title(), introduction, steps, &mut out),
        false => trace::write(introduction, steps, colour::wanted(target), &mut out),
    })?;
    let status = expected::compare(&input, &answers);
    match differing {
        0 => Ok(status),
        count => Err(Failure::input(
            &input.name,
            format!(
                "{} and the guard differ: keylock is wrong",
                counted(count, "explanation")
            ),
        )),
    }
}

fn explained(input: &Input) -> Box<dyn Iterator<Item = Step<'_>> + '_> {
    let mut progress = Progress::new(input.journal.records().count(), "records");
    let steps: Box<dyn Iterator<Item = Step>> = match &input.text {
        Some(text) => {
            let entries = text.calls().map(|(line, call)| Entry::of_text(line, call));
            Box::new(steps::explain(entries))
        }
        None => Box::new(steps::explain(input.journal.records().map(Entry::from))),
    };
    Box::new(steps.inspect(move |step| progress.at(step.place)))
}
