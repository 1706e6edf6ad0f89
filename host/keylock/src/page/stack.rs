//! A thread on the page: its open calls as boxes, and the keys that it holds.

use super::html::{said, sentence};
use super::pieces::Pieces;
use crate::steps::{Change, OpenCall, ThreadView};
use rotundaaloe::formula::Key;

/// The open calls, the newest on top, over the identity keys.
pub fn column(thread: &ThreadView, pieces: &mut Pieces) -> String {
    if let Change::Ended(closed) = &thread.change {
        return ended(thread, closed, pieces);
    }
    let left = match &thread.change {
        Change::Left(call) => left(call, &thread.keys, "just left", pieces),
        Change::Nothing | Change::Started | Change::Called | Change::Ended(_) => String::new(),
    };
    let called = thread.change == Change::Called;
    let newest_first = thread.calls.iter().rev().enumerate();
    let frames: String = newest_first
        .map(|(depth, call)| frame(call, called && depth == 0, pieces))
        .collect();
    let identity = identity(thread);
    let held = key_row(&thread.keys, pieces);
    format!(
        "<div>\n<h3>Open calls, newest on top</h3>\n\
         <ol class=\"stack\">{left}{frames}{identity}</ol>\n\
         <div class=\"held\"><h3>So it holds</h3>{held}</div>\n</div>\n"
    )
}

fn ended(thread: &ThreadView, closed: &[OpenCall], pieces: &mut Pieces) -> String {
    let newest_first = closed.iter().rev();
    let boxes: String = newest_first
        .map(|call| left(call, &[], "closed", pieces))
        .collect();
    let (thread, user) = (sentence(&thread.said), said(&thread.user_said));
    format!(
        "<div>\n<h3>{thread} of {user} has ended</h3>\n<ol class=\"stack\">{boxes}</ol>\n</div>\n"
    )
}

fn identity(thread: &ThreadView) -> String {
    let (name, user) = (said(&thread.said), said(&thread.user_said));
    let (number, of) = (thread.number, thread.user);
    format!(
        "<li class=\"own\"><b>{name}</b>\
         <div class=\"keys\"><code>U{of}</code><code>R{number}</code></div>\
         <small>of {user}, always held</small></li>"
    )
}

pub fn key_row(keys: &[Key], pieces: &mut Pieces) -> String {
    let codes: String = keys.iter().map(|key| code(key, pieces)).collect();
    pieces.share(format!("<div class=\"keys\">{codes}</div>"))
}

fn code(key: &Key, pieces: &mut Pieces) -> String {
    pieces.share(format!("<code>{key}</code>"))
}

/// A box of the stack.
fn frame(call: &OpenCall, is_new: bool, pieces: &mut Pieces) -> String {
    let (class, word) = match is_new {
        true => (" class=\"new\"", " <em>just called</em>"),
        false => ("", ""),
    };
    let (name, keys) = (said(&call.said), handed_over(call, pieces));
    pieces.share(format!("<li{class}><b>{name}{word}</b>{keys}</li>"))
}

/// The keys that an open call hands over, and behind them those that were taken
/// since.
fn handed_over(call: &OpenCall, pieces: &mut Pieces) -> String {
    let keys: String = call.keys.iter().map(|key| code(key, pieces)).collect();
    let taken = taken(call, pieces);
    pieces.share(format!("<div class=\"keys\">{keys}{taken}</div>"))
}

/// The keys that were taken from a call while it was open: struck out, with the
/// steps that took them.
fn taken(call: &OpenCall, pieces: &mut Pieces) -> String {
    let taken = call.taken.iter().map(|taken| {
        let (key, when) = (taken.key, said(&taken.when()));
        let struck = format!("<code class=\"gone\">{key}</code><i>{when}</i>");
        pieces.share(format!("<span class=\"taken\">{struck}</span>"))
    });
    taken.collect()
}

/// The box of a call that is no longer open. Keys that the thread holds no more
/// are struck out.
fn left(call: &OpenCall, held: &[Key], word: &str, pieces: &mut Pieces) -> String {
    let (still, gone): (Vec<&Key>, Vec<&Key>) =
        call.keys.iter().partition(|key| held.contains(key));
    let gone = gone
        .iter()
        .map(|key| format!("<code class=\"gone\">{key}</code>"));
    let kept = still.iter().map(|key| format!("<code>{key}</code>"));
    let keys: String = gone.chain(kept).collect();
    let label = match still.is_empty() {
        true => "",
        false => "<i>still held</i>",
    };
    let (name, taken) = (said(&call.said), taken(call, pieces));
    let keys = format!("<div class=\"keys\">{keys}{label}{taken}</div>");
    pieces.share(format!(
        "<li class=\"left\"><b>{name} <em>{word}</em></b>{keys}</li>"
    ))
}
