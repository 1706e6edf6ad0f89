//! What a journal calls its users, threads, segments and keys. A name stands in
//! the comment behind the call that makes the thing, after the thing and a comma
//! or colon: `N 0 1  # segment 2, the totals sheet`. Other comments are remarks.

use rotundaaloe::{Defined, Segment, Thread, User};
use std::collections::BTreeMap;
use std::fmt;

/// A longer text is a remark and no name.
const LONGEST: usize = 40;

/// What a name can be of. Shown as a comment begins with it: `segment 2`.
#[derive(Clone, Copy, Debug, PartialEq, Eq, PartialOrd, Ord)]
pub enum Thing {
    User(User),
    Thread(Thread),
    Segment(Segment),
    Key(Defined),
}

impl fmt::Display for Thing {
    fn fmt(&self, f: &mut fmt::Formatter) -> fmt::Result {
        match self {
            Thing::User(User(number)) => write!(f, "user {number}"),
            Thing::Thread(Thread(number)) => write!(f, "thread {number}"),
            Thing::Segment(Segment(number)) => write!(f, "segment {number}"),
            Thing::Key(key) => write!(f, "key {key}"),
        }
    }
}

impl From<User> for Thing {
    fn from(user: User) -> Thing {
        Thing::User(user)
    }
}

impl From<Thread> for Thing {
    fn from(thread: Thread) -> Thing {
        Thing::Thread(thread)
    }
}

impl From<Segment> for Thing {
    fn from(segment: Segment) -> Thing {
        Thing::Segment(segment)
    }
}

impl From<Defined> for Thing {
    fn from(key: Defined) -> Thing {
        Thing::Key(key)
    }
}

#[derive(Clone, Debug, Default)]
pub struct Names(BTreeMap<Thing, String>);

impl Names {
    /// Takes a new thing's name from the comment behind its call, if it has one.
    pub fn learn(&mut self, thing: Thing, comment: &str) {
        if let Some(name) = name_in(comment, &thing.to_string()) {
            self.0.insert(thing, name.to_string());
        }
    }

    pub fn get(&self, thing: impl Into<Thing>) -> Option<&str> {
        self.0.get(&thing.into()).map(String::as_str)
    }

    /// As a sentence says it: `the totals sheet (segment 2)`, and without a name
    /// `segment 2`.
    pub fn said(&self, thing: impl Into<Thing>) -> String {
        let thing = thing.into();
        match self.get(thing) {
            Some(name) => format!("{name} ({thing})"),
            None => thing.to_string(),
        }
    }
}

fn name_in<'a>(comment: &'a str, thing: &str) -> Option<&'a str> {
    let (start, rest) = comment.split_at_checked(thing.len())?;
    let name = rest.strip_prefix([',', ':'])?.trim();
    let is_name = start.eq_ignore_ascii_case(thing) && !name.is_empty();
    (is_name && name.chars().count() <= LONGEST).then_some(name)
}

#[cfg(test)]
mod tests {
    use super::{Names, Thing};
    use rotundaaloe::{Defined, Segment, Thread, User};

    fn said(thing: Thing, comment: &str) -> String {
        let mut names = Names::default();
        names.learn(thing, comment);
        names.said(thing)
    }

    #[test]
    fn a_name_stands_behind_its_thing() {
        let totals = Thing::Segment(Segment(2));
        let named = "the totals sheet (segment 2)";
        assert_eq!(said(totals, "segment 2, the totals sheet"), named);
        assert_eq!(said(totals, "segment 2:the totals sheet "), named);
        assert_eq!(said(totals, "Segment 2, the totals sheet"), named);
        let office = Thing::User(User(0));
        assert_eq!(said(office, "user 0, the office"), "the office (user 0)");
        let closing = Thing::Thread(Thread(1));
        assert_eq!(said(closing, "thread 1, May"), "May (thread 1)");
        let audit = Thing::Key(Defined(7));
        assert_eq!(said(audit, "key D7, audit"), "audit (key D7)");
    }

    #[test]
    fn a_remark_is_no_name() {
        let totals = Thing::Segment(Segment(2));
        for remark in [
            "the totals sheet",
            "segment 1, the totals sheet",
            "segment 20, the totals sheet",
            "segment 2 is a sheet",
            "segment 2",
            "segment 2, ",
            "2: user 0 makes a sheet",
            "segment 2, which nobody may read before the rates are in",
        ] {
            assert_eq!(said(totals, remark), "segment 2", "{remark}");
        }
    }
}
