//! The steps as text for a terminal.

mod details;
mod paint;

use crate::steps::{Step, Troubles};
use paint::{Look, Paint};
use std::io::{self, Write};

/// Longer calls and words push the answer to the right.
const WIDEST: usize = 48;

/// Writes the introduction and the steps one under the other, in ANSI colours
/// if asked for.
pub fn write<'a>(
    introduction: &[String],
    steps: impl IntoIterator<Item = Step<'a>>,
    colour: bool,
    out: &mut impl Write,
) -> io::Result<()> {
    let paint = Paint { colour };
    let mut troubles = Troubles::default();
    let steps = steps.into_iter().map(|step| {
        troubles.take_in(&step);
        Shown::of(&step, paint)
    });
    let steps: Vec<Shown> = steps.collect();
    for line in introduction {
        writeln!(out, "{}", paint.text(Look::Plain, line))?;
    }
    if !introduction.is_empty() {
        writeln!(out)?;
    }
    let widths = Widths::of(&steps);
    for step in &steps {
        step.write(&widths, paint, out)?;
    }
    for trouble in troubles.sentences() {
        writeln!(out, "\n{}", paint.text(Look::Alarm, &trouble))?;
    }
    Ok(())
}

/// A step in text. What stands in columns waits for their widths.
struct Shown {
    heading: Vec<String>,
    place: String,
    call: String,
    words: String,
    answer: String,
    answer_in_words: String,
    look: Look,
    details: String,
}

impl Shown {
    fn of(step: &Step, paint: Paint) -> Shown {
        Shown {
            heading: step.entry.heading.clone(),
            place: step.place.to_string(),
            call: step.written(),
            words: step.call_in_words.clone(),
            answer: step.given().to_string(),
            answer_in_words: step.answer_in_words.clone(),
            look: match step.answer {
                Ok(_) => Look::Good,
                Err(_) => Look::Bad,
            },
            details: details::of(step, paint),
        }
    }

    fn write(&self, widths: &Widths, paint: Paint, out: &mut impl Write) -> io::Result<()> {
        if !self.heading.is_empty() && self.place != "0" {
            writeln!(out)?;
        }
        for line in &self.heading {
            writeln!(out, "{}", paint.text(Look::Strong, line))?;
        }
        let place = format!("{:>width$}", self.place, width = widths.place);
        let call = format!("{:width$}", self.call, width = widths.call);
        let call = paint.text(Look::Strong, &call);
        let words = format!("{:width$}", self.words, width = widths.words);
        let words = paint.text(Look::Plain, &words);
        let answer = format!("{:width$}", self.answer, width = widths.answer);
        let answer = format!("{answer}  {}", self.answer_in_words);
        let answer = paint.text(self.look, &answer);
        writeln!(out, "{place}  {call}  {words}  {answer}")?;
        let indent = widths.place + 2;
        for line in self.details.lines() {
            writeln!(out, "{:indent$}{line}", "")?;
        }
        Ok(())
    }
}

/// Of the columns.
struct Widths {
    place: usize,
    call: usize,
    words: usize,
    answer: usize,
}

impl Widths {
    fn of(steps: &[Shown]) -> Widths {
        let width = |part: fn(&Shown) -> &str| {
            let widths = steps.iter().map(|step| part(step).chars().count());
            widths.max().unwrap_or(0).min(WIDEST)
        };
        Widths {
            place: width(|step| &step.place),
            call: width(|step| &step.call),
            words: width(|step| &step.words),
            answer: width(|step| &step.answer),
        }
    }
}
