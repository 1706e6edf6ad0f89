//! What is wrong with a journal's steps, in a sentence or two.

use super::Step;

/// So many steps are named.
const MOST_NAMED: usize = 8;

/// The steps that something is wrong with, gathered one at a time.
#[derive(Default)]
pub struct Troubles {
    unexpected: Places,
    differing: Places,
}

#[derive(Default)]
struct Places {
    first: Vec<String>,
    count: usize,
}

impl Troubles {
    pub fn take_in(&mut self, step: &Step) {
        if step.as_expected() == Some(false) {
            self.unexpected.push(step.place);
        }
        if step.disagreement.is_some() {
            self.differing.push(step.place);
        }
    }

    /// A sentence each for answers that aren't the expected ones, and for
    /// explanations that differ from the guard.
    pub fn sentences(&self) -> Vec<String> {
        let unexpected = self
            .unexpected
            .sentence("answer isn't as expected", "answers aren't as expected");
        let differing = self.differing.sentence(
            "explanation differs from the guard",
            "explanations differ from the guard",
        );
        unexpected.into_iter().chain(differing).collect()
    }
}

impl Places {
    fn push(&mut self, place: usize) {
        self.count += 1;
        if self.first.len() < MOST_NAMED {
            self.first.push(place.to_string());
        }
    }

    fn sentence(&self, one: &str, more: &str) -> Option<String> {
        let first = self.first.join(", ");
        let dots = match self.count > self.first.len() {
            true => ", ...",
            false => "",
        };
        match self.count {
            0 => None,
            1 => Some(format!("1 {one}: step {first}")),
            count => Some(format!("{count} {more}: steps {first}{dots}")),
        }
    }
}
