//! The answer that a line expects.

use super::{ARROW, Scanner, Word, fault, number};
use crate::answer::Answer;
use crate::letters::Letter;
use crate::spelling;
use crate::text::hint;
use crate::text::wrong::{Fault, Wrong};

const ANSWERS: Wrong = Wrong::Always("an expected answer is 'ok N' or 'no N M'");

impl<'a> Scanner<'a> {
    /// The expected answer, if there is one, and nothing more.
    pub(super) fn expected(&mut self, letter: Letter) -> Result<Option<Answer>, Fault<'a>> {
        let Some(word) = self.word() else {
            return Ok(None);
        };
        if word.bytes != ARROW {
            return fault(word.at, no_arrow(letter, word.bytes));
        }
        let answer = match self.answer_word()?.bytes {
            b"ok" => Answer::Ok(self.answer_number()?),
            b"no" => {
                let refusal = self.answer_number()?;
                let second = self.second_number(refusal)?;
                Answer::No { refusal, second }
            }
            word => return fault(self.end - word.len(), ANSWERS),
        };
        match self.word() {
            None => Ok(Some(answer)),
            Some(word) if hint::begins_comment(word.bytes) => {
                fault(word.at, Wrong::Always(hint::COMMENT))
            }
            Some(word) => fault(word.at, ANSWERS),
        }
    }

    fn answer_word(&mut self) -> Result<Word<'a>, Fault<'a>> {
        let end = self.end;
        self.word().map_or_else(|| fault(end, ANSWERS), Ok)
    }

    fn answer_number(&mut self) -> Result<u16, Fault<'a>> {
        let word = self.answer_word()?;
        number(&word, ANSWERS)
    }

    fn second_number(&mut self, refusal: u16) -> Result<u16, Fault<'a>> {
        match self.peek() {
            None => fault(self.end, Wrong::NoSecondNumber(refusal)),
            Some(_) => self.answer_number(),
        }
    }
}

/// What a word is that stands where `->` could.
fn no_arrow(letter: Letter, word: &[u8]) -> Wrong<'_> {
    let operator = spelling::foreign_operator(word).filter(|_| letter.has_text());
    let is_answer = |answer: &[u8]| word.eq_ignore_ascii_case(answer);
    match operator {
        _ if is_answer(b"ok") || is_answer(b"no") => Wrong::NoArrow(word),
        _ if word.starts_with(ARROW) => Wrong::Always("a blank is missing after '->'"),
        _ if hint::is_arrow(word) => Wrong::Always("an expected answer stands behind '->'"),
        _ if hint::begins_comment(word) => Wrong::Always(hint::COMMENT),
        Some(operator) => Wrong::Operator(operator),
        None => Wrong::TooMuch(letter),
    }
}
