//! Journals for people: as text, and explained step by step. Every answer is the
//! proved guard's.
//!
//! [`text`] is the text of a journal, [`damage`] says where a file is broken,
//! [`edits`] who edits.
//! [`steps`] explains each call; [`trace`] shows the steps on a terminal, [`page`]
//! in a browser. [`listing`] shows a segment's lock list, [`key_search`] which open
//! call hands a key over, [`state`] a state file. The rest is what these share.

pub mod answer;
pub mod damage;
pub mod edits;
pub mod figures;
pub mod key_search;
pub mod letters;
pub mod listing;
pub mod names;
pub mod page;
pub mod progress;
pub mod shown;
mod spelling;
pub mod state;
pub mod steps;
pub mod text;
pub mod trace;
pub mod words;
