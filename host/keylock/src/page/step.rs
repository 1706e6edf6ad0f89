//! One step of the page: the call, the answer, why, and the thread's stack.

use super::html::{self, escaped, sentence};
use super::pieces::Pieces;
use super::stack;
use super::{lines, listing, locks, segment};
use crate::shown;
use crate::steps::Step;
use rotundaaloe::Letter;

pub fn section(step: &Step, pieces: &mut Pieces) -> String {
    let class = if step.answer.is_ok() { "ok" } else { "no" };
    let place = step.place;
    let said = pieces.share(escaped(&step.in_a_sentence()));
    let call = pieces.share(sentence(&step.call_in_words)) + &formula(step);
    let written = html::formula(&step.written());
    let (chapter, note) = (chapter(step), note(step));
    let answer = answer(step, pieces);
    let (answer, alarms) = (pieces.share(answer), alarms(step));
    let columns = columns(step, pieces);
    format!(
        "<section class=\"step {class}\" id=\"step-{place}\" aria-labelledby=\"call-{place}\" \
         data-said=\"Step {place}: {said}\">\n\
         {chapter}<h2 id=\"call-{place}\">{call}</h2>\n\
         <p class=\"where\">Step {place}: <code>{written}</code></p>\n{note}{answer}{alarms}\
         {columns}</section>\n"
    )
}

fn columns(step: &Step, pieces: &mut Pieces) -> String {
    let mut columns = asked(step, pieces);
    if let Some(view) = &step.segment {
        columns += &segment::columns(view, pieces);
    }
    for thread in step.thread.iter().chain(&step.losing) {
        columns += &stack::column(thread, pieces);
    }
    pieces.share(format!("<div class=\"cols\">\n{columns}</div>\n"))
}

/// Of a C or an A: the locks that decide it, and its segment's lock list.
fn asked(step: &Step, pieces: &mut Pieces) -> String {
    let judgement = step.judgement.iter();
    let mut parts: String = judgement
        .map(|tried| locks::tried_on(tried, pieces))
        .collect();
    let asked = step.asked.iter();
    parts.extend(asked.map(|view| listing::folded(view, pieces)));
    match parts.is_empty() {
        true => parts,
        false => format!("<div>\n{parts}</div>\n"),
    }
}

/// When a new lock is to open.
fn formula(step: &Step) -> String {
    let record = step.entry.record;
    match Letter::of(record.letter).is_some_and(Letter::has_text) {
        true => format!(
            " if <code>{}</code>",
            html::formula(&shown::bytes(record.text))
        ),
        false => String::new(),
    }
}

fn chapter(step: &Step) -> String {
    let lines = lines::drawn(&step.entry.heading);
    let Some((first, rest)) = lines.split_first() else {
        return String::new();
    };
    let rest: String = rest.iter().map(|line| format!("<br>{line}")).collect();
    format!("<p class=\"chapter\"><b>{first}</b>{rest}</p>\n")
}

fn note(step: &Step) -> String {
    let note = step.entry.note.iter();
    note.map(|note| format!("<p class=\"note\">{}</p>\n", escaped(note)))
        .collect()
}

fn answer(step: &Step, pieces: &mut Pieces) -> String {
    let why = pieces.share(html::said(&step.reason));
    let met = match step.as_expected() {
        Some(true) => "<span class=\"met\">as expected</span>",
        _ => "",
    };
    format!(
        "<div class=\"answer\"><p class=\"word\">{}<code>{}</code>{met}</p>\
         <p class=\"why\">{why}</p></div>\n",
        sentence(&step.answer_in_words),
        step.given(),
    )
}

fn alarms(step: &Step) -> String {
    let mut text = String::new();
    if let (Some(false), Some(expected)) = (step.as_expected(), step.entry.expected) {
        let given = step.given();
        text += &format!("<p class=\"alarm\">Expected {expected}, but the answer is {given}</p>\n");
    }
    if let Some(differs) = &step.disagreement {
        let differs = escaped(differs);
        text += &format!("<p class=\"alarm\">Explanation and guard differ: {differs}</p>\n");
    }
    text
}
