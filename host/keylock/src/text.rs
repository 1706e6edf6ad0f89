//! Text journals: a journal with one call a line, for people to read and write.
//!
//! ```text
//! # a comment runs to the end of the line
//! N 0 1                    # the fields that the letter names
//! L 0 2 4 S0&S1            # L's formula comes last
//! L 0 2 4 "S0 & \x00\"\\"  # in quotes any bytes, which the guard may refuse
//! A 0 2 4 -> no 15 0       # with the answer that is expected
//! ```

mod hint;
mod line;
mod mistakes;
mod write;
mod wrong;

use crate::answer::Answer;
use crate::shown;
pub use hint::NUL;
use line::{CallLine, Found};
pub use mistakes::{Mistake, Mistakes};
use rotundaaloe::refusal::Append;
use rotundaaloe::{Journal, Record};
pub use write::{call, disassemble};
use wrong::{Fault, Wrong};

/// The most lines of comment that are kept, those behind calls aside.
const MOST_COMMENTS: usize = 65_536;
const LEFT_OUT: &str = "(further comments are left out)";
/// The most characters of a comment that are kept.
const LONGEST_COMMENT: usize = 4_096;

/// A text journal, read. Comments are for people: of more than they would read,
/// the first are kept.
#[derive(Clone, Debug)]
pub struct Text {
    /// The comments that the text opens with: up to the first blank line or call.
    pub introduction: Vec<String>,
    /// A line for each record, in order.
    pub lines: Vec<Line>,
    pub journal: Journal,
}

/// What a call's line says beside its record.
#[derive(Clone, Debug, PartialEq, Eq)]
pub struct Line {
    /// From 1.
    pub number: usize,
    pub expected: Option<Answer>,
    /// The comment behind the call.
    pub comment: Option<String>,
    /// The comments on lines of their own before the call.
    pub heading: Vec<String>,
}

impl Text {
    /// Each call's line with its record.
    pub fn calls(&self) -> impl Iterator<Item = (&Line, Record<'_>)> {
        self.lines.iter().zip(self.journal.records())
    }

    /// The same for who reads no comments.
    pub fn without_comments(mut self) -> Text {
        self.introduction = Vec::new();
        for line in &mut self.lines {
            line.comment = None;
            line.heading = Vec::new();
        }
        self
    }

    /// How many answers are expected.
    pub fn expected(&self) -> usize {
        let lines = self.lines.iter();
        lines.filter(|line| line.expected.is_some()).count()
    }
}

const BYTE_ORDER_MARK: &[u8] = b"\xEF\xBB\xBF";

/// The lines of a text, without their ends.
pub fn lines(text: &[u8]) -> impl Iterator<Item = &[u8]> {
    let text = text.strip_prefix(BYTE_ORDER_MARK).unwrap_or(text);
    text.split(|byte| *byte == b'\n')
        .map(|line| line.strip_suffix(b"\r").unwrap_or(line))
}

/// Reads a text. All of its mistakes are found, one a line at most.
pub fn parse(text: &[u8]) -> Result<Text, Mistakes> {
    parse_with(text, |_| ())
}

/// As [`parse`], and tells how many lines are read.
pub fn parse_with(text: &[u8], mut at_line: impl FnMut(usize)) -> Result<Text, Mistakes> {
    let mut reader = Reader::new();
    for (place, line) in lines(text).enumerate() {
        reader.take(place + 1, line);
        at_line(place + 1);
    }
    reader.finish()
}

struct Reader {
    text: Text,
    /// Comments that the next call's heading is made of.
    comments: Vec<String>,
    /// The lines of comment that were read.
    commented: usize,
    full: bool,
    mistakes: Mistakes,
}

impl Reader {
    fn new() -> Reader {
        Reader {
            text: Text {
                introduction: Vec::new(),
                lines: Vec::new(),
                journal: Journal::new(),
            },
            comments: Vec::new(),
            commented: 0,
            full: false,
            mistakes: Mistakes::default(),
        }
    }

    fn take(&mut self, number: usize, line: &[u8]) {
        let taken = match line::read(line) {
            Ok(Found::Nothing) => {
                self.introduce();
                Ok(())
            }
            Ok(Found::Comment(comment)) => {
                self.comment(comment);
                Ok(())
            }
            Ok(Found::Call(call)) => self.add(number, call),
            Err(fault) => Err(fault),
        };
        if let Err(fault) = taken {
            self.mistakes.add(number, line, &fault);
        }
    }

    /// The first comments are the introduction.
    fn introduce(&mut self) {
        if self.text.lines.is_empty() && self.text.introduction.is_empty() {
            self.text.introduction = std::mem::take(&mut self.comments);
        }
    }

    fn comment(&mut self, comment: &[u8]) {
        self.commented += 1;
        if self.commented < MOST_COMMENTS {
            self.comments.push(kept(comment));
        } else if self.commented == MOST_COMMENTS {
            self.comments.push(LEFT_OUT.to_string());
        }
    }

    fn add<'a>(&mut self, number: usize, call: CallLine<'a>) -> Result<(), Fault<'a>> {
        self.introduce();
        self.append(&call)?;
        self.mistakes.right_calls += 1;
        // Nobody asks for the lines of a text that is refused.
        if self.mistakes.count == 0 {
            self.text.lines.push(Line {
                number,
                expected: call.expected,
                comment: call.comment.map(kept).filter(|comment| !comment.is_empty()),
                heading: std::mem::take(&mut self.comments),
            });
        }
        Ok(())
    }

    fn append<'a>(&mut self, call: &CallLine<'a>) -> Result<(), Fault<'a>> {
        if self.full {
            return Ok(());
        }
        let wrong = match self.text.journal.append(call.record()) {
            Ok(()) => return Ok(()),
            Err(Append::Full) => {
                self.full = true;
                Wrong::Full(self.text.journal.records().count())
            }
            Err(refusal) => Wrong::Refused(refusal),
        };
        Err(Fault { at: call.at, wrong })
    }

    fn finish(mut self) -> Result<Text, Mistakes> {
        self.introduce();
        match self.mistakes.count {
            0 => Ok(self.text),
            _ => Err(self.mistakes),
        }
    }
}

/// What is kept of a comment.
fn kept(comment: &[u8]) -> String {
    let start = shown::start(comment, LONGEST_COMMENT);
    start.trim().replace('\t', " ")
}
