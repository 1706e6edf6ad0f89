//! A segment on the page: its locks, its key list and its lock list.

use super::html::said;
use super::pieces::Pieces;
use super::stack::key_row;
use super::{listing, locks};
use crate::steps::SegmentView;

pub fn columns(segment: &SegmentView, pieces: &mut Pieces) -> String {
    let kind = if segment.sheet { "sheet" } else { "code" };
    let (name, owner) = (said(&segment.said), said(&segment.owner_said));
    let locks = segment.locks.iter();
    let mut locks: String = locks.map(|lock| locks::standing(lock, pieces)).collect();
    if locks.is_empty() {
        locks = "<p class=\"lock\">None stands.</p>\n".to_string();
    }
    let keys = key_row(&segment.keys, pieces);
    let lists = listing::drawn(&segment.lists, pieces);
    format!(
        "<div>\n<h3>Locks on {name}</h3>\n{locks}</div>\n\
         <div>\n<h3>Its key list</h3>\n\
         <ul class=\"stack\"><li><b>{name}</b>{keys}<small>{kind} of {owner}</small></li></ul>\n\
         {lists}</div>\n"
    )
}
