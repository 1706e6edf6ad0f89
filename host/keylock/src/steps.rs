//! A journal explained: for each call its answer, why it is so, and where the
//! thread then stands. The proved guard gives the answers and the lock lists, and
//! finds the open call that handed a key over; the rest is read from the history
//! of calls and answers.

mod accepted;
mod check;
mod choice;
mod judgement;
mod kept;
mod lack;
mod listing;
mod product;
mod refused;
mod state;
mod troubles;
mod view;

pub use judgement::{Judgement, Tried};
pub use kept::Taken;
pub use listing::Lists;
pub use product::{Holder, Literal, Product};
pub use troubles::Troubles;
pub use view::{Change, Lock, OpenCall, SegmentView, ThreadView};

use crate::answer::Answer;
use crate::text::{self, Line};
use crate::words;
use rotundaaloe::formula::Key;
use rotundaaloe::{Guard, Record, Refusal, Segment};
use state::{Loss, State};
use view::Concern;

/// A call, with what its author wrote beside it.
#[derive(Clone, Debug)]
pub struct Entry<'a> {
    pub record: Record<'a>,
    /// Lines above the call: what the next few calls are about.
    pub heading: Vec<String>,
    /// A remark on the call.
    pub note: Option<String>,
    pub expected: Option<Answer>,
}

impl<'a> From<Record<'a>> for Entry<'a> {
    fn from(record: Record<'a>) -> Entry<'a> {
        Entry {
            record,
            heading: Vec::new(),
            note: None,
            expected: None,
        }
    }
}

impl<'a> Entry<'a> {
    /// A call of a text journal, with what its line says.
    pub fn of_text(line: &Line, record: Record<'a>) -> Entry<'a> {
        Entry {
            record,
            heading: line.heading.clone(),
            note: line.comment.clone(),
            expected: line.expected,
        }
    }
}

/// A call, what came of it, and why.
#[derive(Clone, Debug)]
pub struct Step<'a> {
    /// From 0, as a replay prints it.
    pub place: usize,
    pub entry: Entry<'a>,
    pub answer: Result<u16, Refusal>,
    /// What it asks for, by the names that the journal gives.
    pub call_in_words: String,
    pub answer_in_words: String,
    /// One or two sentences.
    pub reason: String,
    /// Of a C or an A that the locks decide.
    pub judgement: Option<Judgement>,
    /// The thread of an S, E, C, R or A, after it.
    pub thread: Option<ThreadView>,
    /// The segment of an N, G, T, L or D, after it.
    pub segment: Option<SegmentView>,
    /// The threads of which a T withdraws the key from an open call, after it.
    pub losing: Vec<ThreadView>,
    /// The segment of a C or an A, after it.
    pub asked: Option<SegmentView>,
    /// What the explanation and the guard's answer differ in. Never there,
    /// unless this library is wrong.
    pub disagreement: Option<String>,
}

impl Step<'_> {
    /// The call as a text journal has it: `A 0 2 4`.
    pub fn written(&self) -> String {
        text::call(&self.entry.record)
    }

    /// The answer as a replay prints it: `ok 2`, `no 15 0`.
    pub fn given(&self) -> Answer {
        self.answer.into()
    }

    /// Whether the answer is the expected one, if one is expected.
    pub fn as_expected(&self) -> Option<bool> {
        let expected = self.entry.expected?;
        Some(expected == self.given())
    }

    /// Whether something is wrong with it: the answer isn't the expected one, or
    /// the explanation differs.
    pub fn is_odd(&self) -> bool {
        self.as_expected() == Some(false) || self.disagreement.is_some()
    }

    /// The call, the answer and, where it is refused for want of keys, what is
    /// missing, in one sentence.
    pub fn in_a_sentence(&self) -> String {
        let refused = self.answer == Err(Refusal::NotGranted);
        let judgement = self.judgement.as_ref().filter(|_| refused);
        let nearest = judgement.and_then(Judgement::nearest);
        let lacking = nearest.map(|(_, product)| format!(", {}", product.shortfall()));
        let lacking = lacking.unwrap_or_default();
        let odd = match self.as_expected() {
            Some(false) => ", not as expected",
            _ => "",
        };
        let (call, answer) = (&self.call_in_words, &self.answer_in_words);
        format!("{call}, {answer}{lacking}{odd}.")
    }
}

/// Keys with blanks between.
pub fn shown_keys(keys: &[Key]) -> String {
    let shown: Vec<String> = keys.iter().map(Key::to_string).collect();
    shown.join(" ")
}

/// The steps of a journal, one at a time: those of a long one take much memory.
pub fn explain<'a>(entries: impl IntoIterator<Item = Entry<'a>>) -> impl Iterator<Item = Step<'a>> {
    let mut teller = Teller::default();
    let entries = entries.into_iter().enumerate();
    entries.map(move |(place, entry)| teller.step(place, entry))
}

#[derive(Default)]
struct Teller {
    guard: Guard,
    state: State,
}

impl Teller {
    fn step<'a>(&mut self, place: usize, entry: Entry<'a>) -> Step<'a> {
        let record = entry.record;
        let judgement = judgement::of(&self.state, &self.guard, &record);
        let answer = self.guard.call(record);
        let judgement = judgement.map(|judgement| judgement.answered(answer));
        let call_in_words = words::call_by_name(&record, &self.state.kept.names, |thread| {
            self.state.editor(thread)
        });
        if let Ok(answer) = answer {
            self.state.kept.learn(&entry, answer);
        }
        let state = &self.state;
        let reason = match answer {
            Ok(answer) => accepted::reason(state, &record, answer, judgement.as_ref()),
            Err(refusal) => refused::reason(state, &record, refusal, judgement.as_ref()),
        };
        let disagreement = check::disagreement(state, &record, answer, judgement.as_ref());
        let concern = view::concern(state, &record, answer);
        let losses = self.take_in(place, &record, answer);
        let withdrawn = check::withdrawn_disagreement(&self.state, &self.guard, &losses);
        let (thread, segment) = self.views(concern);
        let asked = judgement::asked(&record).and_then(|(_, segment)| self.view_of(segment));
        let mut listed = segment.iter().chain(&asked);
        let listed = listed.find_map(check::listed_disagreement);
        Step {
            place,
            answer,
            call_in_words,
            answer_in_words: words::answer(&record, answer, &self.state.kept.names),
            reason,
            judgement,
            thread,
            segment,
            losing: view::losing(&self.state, &losses),
            asked,
            disagreement: disagreement.or(withdrawn).or(listed),
            entry,
        }
    }

    /// Takes in an answered call, and tells which open calls lost a key by it.
    fn take_in(
        &mut self,
        place: usize,
        record: &Record,
        answer: Result<u16, Refusal>,
    ) -> Vec<Loss> {
        let Ok(answer) = answer else {
            return Vec::new();
        };
        let losses = self.state.losses(record);
        self.state.take_in(place, record, answer, &losses);
        losses
    }

    /// The thread or the segment that a call concerns, after it.
    fn views(&self, concern: Concern) -> (Option<ThreadView>, Option<SegmentView>) {
        match concern {
            Concern::Nothing => (None, None),
            Concern::Thread(thread, change) => (view::thread(&self.state, thread, change), None),
            Concern::Segment(segment) => (None, self.view_of(segment)),
        }
    }

    /// A segment after the call, if it is handed out.
    fn view_of(&self, segment: Segment) -> Option<SegmentView> {
        view::segment(&self.state, &self.guard, segment)
    }
}
