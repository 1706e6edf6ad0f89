//! A segment's lock list on the page: what its owner sees and what a colleague
//! does.

use super::html::said;
use super::pieces::Pieces;
use crate::steps::{Lists, SegmentView};
use crate::words;
use rotundaaloe::LockRow;

/// Empty where no lock stands.
pub fn drawn(lists: &Lists, pieces: &mut Pieces) -> String {
    if lists.owners.is_empty() && lists.colleagues.is_empty() {
        return String::new();
    }
    let owners = list("Its owner sees in the lock list", &lists.owners, pieces);
    let colleagues = list("A colleague sees", &lists.colleagues, pieces);
    let meaning = pieces.share(MEANING.to_string());
    pieces.share(format!("{owners}{colleagues}{meaning}"))
}

/// The same under a line that opens it, where other things matter more.
pub fn folded(segment: &SegmentView, pieces: &mut Pieces) -> String {
    let lists = drawn(&segment.lists, pieces);
    if lists.is_empty() {
        return lists;
    }
    let name = said(&segment.said);
    pieces.share(format!(
        "<details><summary>Lock list of {name}</summary>\n{lists}</details>\n"
    ))
}

const MEANING: &str = "<p class=\"after\">A row's keys must all be held, and none with a \
    <code>!</code>; of a lock's rows one is enough. A colleague knows which locks there are, and \
    not how they are opened.</p>\n";

fn list(title: &str, rows: &[LockRow], pieces: &mut Pieces) -> String {
    let rows: String = rows.iter().map(|listed| row(listed, pieces)).collect();
    let start = format!("<div class=\"list\"><h3>{title}</h3><ul class=\"stack\">");
    let start = pieces.share(start);
    format!("{start}{rows}</ul></div>\n")
}

fn row(row: &LockRow, pieces: &mut Pieces) -> String {
    let (lock, verb) = (row.lock.0, words::verb(row.deny));
    let operations = words::operations(row.operations.0);
    let keys = row.keys.iter().map(|key| format!("<code>{key}</code>"));
    let keys: String = keys.map(|key| pieces.share(key)).collect();
    let keys = match keys.is_empty() {
        true => keys,
        false => pieces.share(format!("<div class=\"keys\">{keys}</div>")),
    };
    pieces.share(format!(
        "<li><b>Lock {lock} {verb} {operations}</b>{keys}</li>"
    ))
}
