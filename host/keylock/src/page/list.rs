//! The list of calls, with headings where the journal has them.

use super::html::{escaped, sentence};
use crate::steps::Step;
use std::io::{self, Write};

/// A longer note doesn't fit into the list.
const LONGEST_NOTE: usize = 44;
/// A longer list is laid out only where it is seen, in groups of calls.
const MOST_LAID_OUT: usize = 100;
const GROUP: usize = 50;

#[derive(Default)]
pub struct List {
    items: String,
    count: usize,
}

impl List {
    pub fn push(&mut self, step: &Step) {
        if self.count > 0 && self.count.is_multiple_of(GROUP) {
            self.items += "</ol>\n<ol>\n";
        }
        if let Some(heading) = step.entry.heading.first() {
            let heading = escaped(heading);
            self.items += &format!("<li class=\"chapter\">{heading}</li>\n");
        }
        let mark = if step.answer.is_ok() { "ok" } else { "no" };
        let odd = if step.is_odd() { " odd" } else { "" };
        let place = step.place;
        let words = sentence(&step.call_in_words);
        let note = beside(step);
        self.items += &format!(
            "<li><a class=\"{mark}{odd}\" href=\"#step-{place}\"><span class=\"at\">{place}</span>\
             <span>{words}{note}</span><span class=\"mark\">{mark}</span></a></li>\n"
        );
        self.count += 1;
    }

    pub fn write(&self, out: &mut impl Write) -> io::Result<()> {
        let wide = match self.count > MOST_LAID_OUT {
            true => " wide",
            false => "",
        };
        let items = &self.items;
        writeln!(
            out,
            "<nav class=\"calls{wide}\" aria-label=\"Calls\">\n<ol>\n{items}</ol>\n{HINT}</nav>"
        )
    }
}

const HINT: &str = "<p class=\"hint\">Arrow keys, space, Home and End move. \
    <kbd>n</kbd> and <kbd>p</kbd> go to the next and the previous step that is refused \
    or not as expected.</p>\n";

/// What stands under a call in the list: a trouble, else a short note.
fn beside(step: &Step) -> String {
    if step.disagreement.is_some() {
        return "<strong>explanation differs</strong>".to_string();
    }
    if step.is_odd() {
        return "<strong>not as expected</strong>".to_string();
    }
    let note = step.entry.note.iter();
    note.filter(|note| note.chars().count() <= LONGEST_NOTE)
        .map(|note| format!("<span class=\"note\">{}</span>", escaped(note)))
        .collect()
}
