//! The calls' letters, and what the fields of each call name. A journal keeps a
//! letter as its byte, which may be any.

pub use crate::table::Letter;

/// What a field of a call names.
#[derive(Clone, Copy, Debug, PartialEq, Eq, PartialOrd, Ord)]
pub enum Field {
    User,
    Thread,
    Segment,
    /// A defined key.
    Key,
    Lock,
    /// What a segment is: 0 code or 1 sheet.
    Kind,
    /// A lock's: 1 execute, 2 read, 4 write, their sum, and 8 more to deny.
    Operations,
    /// An access's: 2 read or 4 write.
    Operation,
}

impl Field {
    /// Whether it is a number that the guard has handed out.
    pub const fn is_handed_out(self) -> bool {
        match self {
            Field::User | Field::Thread | Field::Segment | Field::Key | Field::Lock => true,
            Field::Kind | Field::Operations | Field::Operation => false,
        }
    }
}

impl Letter {
    pub const fn byte(self) -> u8 {
        self as u8
    }

    pub const fn char(self) -> char {
        self as u8 as char
    }

    /// Whether its call makes or changes segments, defined keys or locks. Field a is
    /// then the thread by which a user does it.
    pub const fn is_edit(self) -> bool {
        match self {
            Letter::NewSegment | Letter::NewKey | Letter::GiveKey => true,
            Letter::TakeKey | Letter::AddLock | Letter::DropLock => true,
            Letter::NewUser | Letter::StartThread | Letter::EndThread => false,
            Letter::CallSegment | Letter::ReturnCall | Letter::Access => false,
        }
    }

    /// Whether a call with this letter is well formed: 0 in every field that it
    /// doesn't name, and a text only where it has one.
    #[inline(always)]
    pub const fn is_well_formed(self, [a, b, c]: [u16; 3], text_length: usize) -> bool {
        let named = self.fields().len();
        let unnamed_are_0 = (named > 0 || a == 0) && (named > 1 || b == 0) && (named > 2 || c == 0);
        unnamed_are_0 && (text_length == 0 || self.has_text())
    }
}

impl From<Letter> for u8 {
    fn from(letter: Letter) -> u8 {
        letter.byte()
    }
}

#[cfg(test)]
mod tests {
    use super::{Field, Letter};

    #[test]
    fn all_has_every_letter_once() {
        let mut all = Letter::ALL;
        all.sort();
        let known: Vec<Letter> = (0..=255).filter_map(Letter::of).collect();
        assert_eq!(known, all);
        for letter in Letter::ALL {
            assert_eq!(Letter::of(letter.byte()), Some(letter));
            assert!(letter.fields().len() <= 3, "{letter:?}");
        }
    }

    /// Document 02, P4. Of the others, S alone names a user.
    #[test]
    fn six_letters_edit_by_a_thread() {
        let of = |suits: &dyn Fn(Letter) -> bool| -> String {
            let letters = Letter::ALL.into_iter().filter(|letter| suits(*letter));
            letters.map(Letter::char).collect()
        };
        let first_is = |field| move |letter: Letter| letter.fields().first() == Some(&field);
        assert_eq!(of(&Letter::is_edit), "NKGTLD");
        assert_eq!(of(&first_is(Field::Thread)), "ENKGTLDCRA");
        assert_eq!(of(&first_is(Field::User)), "S");
    }
}
