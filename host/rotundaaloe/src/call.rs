//! The twelve calls by name. A journal keeps a call as a [`Record`], whose letter
//! may be any byte; whoever asks which call that is matches on a [`Call`], so
//! that a new one is an error of the compiler in each such place. [`Letter`] has
//! the calls without their fields, and which fields each has.

use crate::journal::Record;
use crate::numbers::{Defined, Lock, Operations, Segment, Thread, User};

/// What a field of a call names.
#[derive(Clone, Copy, Debug, PartialEq, Eq, PartialOrd, Ord)]
pub enum Field {
    User,
    Thread,
    Segment,
    /// A defined key.
    Key,
    Lock,
    /// What a segment is: 0 code or 1 sheet.
    Kind,
    /// A lock's: 1 execute, 2 read, 4 write, their sum, and 8 more to deny.
    Operations,
    /// An access's: 2 read or 4 write.
    Operation,
}

macro_rules! calls {
    ($(
        $(#[$attribute:meta])*
        $name:ident = $letter:literal
        $({ $($field:ident: $what:ident as $type:ident),+ $(; $text:ident)? })?;
    )*) => {
        /// A call with its fields by name. Any numbers stand in them, as in a
        /// journal: which of them are refused is the guard's to say.
        #[derive(Clone, Copy, Debug, PartialEq, Eq)]
        pub enum Call<'a> {
            $($(#[$attribute])* $name $({ $($field: $type,)+ $($text: &'a [u8],)? })?,)*
        }

        /// A call's letter.
        #[derive(Clone, Copy, Debug, PartialEq, Eq, PartialOrd, Ord)]
        #[repr(u8)]
        pub enum Letter {
            $($name = $letter,)*
        }

        impl Letter {
            /// All of them, in document 01's order.
            pub const ALL: [Letter; [$($letter),*].len()] = [$(Letter::$name),*];

            /// The letter that this byte is, if it is one.
            pub const fn of(byte: u8) -> Option<Letter> {
                match byte {
                    $($letter => Some(Letter::$name),)*
                    _ => None,
                }
            }

            /// What its call's fields name, from a on. The others are 0.
            pub const fn fields(self) -> &'static [Field] {
                match self {
                    $(Letter::$name => &[$($(Field::$what),+)?],)*
                }
            }

            /// Whether its call has a text.
            pub const fn has_text(self) -> bool {
                match self {
                    $(Letter::$name => calls!(@has $($($text)?)?),)*
                }
            }
        }

        impl<'a> Call<'a> {
            /// The call that a record is. None where the guard's answer is 18
            /// before all else: an unknown letter, a field that is not 0 where
            /// the call has none, or a text outside L.
            pub fn of(record: &Record<'a>) -> Option<Call<'a>> {
                let mut fields = [record.a, record.b, record.c].into_iter();
                let mut text = record.text;
                let call = match Letter::of(record.letter)? {
                    $(Letter::$name => Call::$name $({
                        $($field: <$type>::from(fields.next()?),)+
                        $($text: std::mem::take(&mut text),)?
                    })?,)*
                };
                (text.is_empty() && fields.all(|field| field == 0)).then_some(call)
            }

            pub const fn letter(&self) -> Letter {
                match self {
                    $(Call::$name { .. } => Letter::$name,)*
                }
            }
        }

        impl<'a> From<Call<'a>> for Record<'a> {
            fn from(call: Call<'a>) -> Record<'a> {
                match call {
                    $(Call::$name $({ $($field,)+ $($text,)? })? => {
                        let fields: &[u16] = &[$($($field.into()),+)?];
                        let mut fields = fields.iter().copied();
                        let mut next = || fields.next().unwrap_or(0);
                        Record {
                            letter: $letter,
                            a: next(),
                            b: next(),
                            c: next(),
                            text: calls!(@text $($($text)?)?),
                        }
                    })*
                }
            }
        }
    };
    (@has text) => { true };
    (@has) => { false };
    (@text $text:ident) => { $text };
    (@text) => { b"" };
}

calls! {
    /// U.
    NewUser = b'U';
    /// S.
    StartThread = b'S' { user: User as User };
    /// E.
    EndThread = b'E' { thread: Thread as Thread };
    /// N: 0 code, 1 sheet.
    NewSegment = b'N' { thread: Thread as Thread, kind: Kind as u16 };
    /// K.
    NewKey = b'K' { thread: Thread as Thread };
    /// G.
    GiveKey = b'G' { thread: Thread as Thread, segment: Segment as Segment, key: Key as Defined };
    /// T.
    TakeKey = b'T' { thread: Thread as Thread, segment: Segment as Segment, key: Key as Defined };
    /// L.
    AddLock = b'L' {
        thread: Thread as Thread, segment: Segment as Segment,
        operations: Operations as Operations; text
    };
    /// D.
    DropLock = b'D' { thread: Thread as Thread, lock: Lock as Lock };
    /// C.
    CallSegment = b'C' { thread: Thread as Thread, segment: Segment as Segment };
    /// R.
    ReturnCall = b'R' { thread: Thread as Thread };
    /// A: 2 read, 4 write.
    Access = b'A'
        { thread: Thread as Thread, segment: Segment as Segment, operation: Operation as u16 };
}

impl Letter {
    pub const fn byte(self) -> u8 {
        self as u8
    }

    pub const fn char(self) -> char {
        self as u8 as char
    }
}

#[cfg(test)]
mod tests {
    use super::{Call, Letter};
    use crate::guard::Guard;
    use crate::journal::{Journal, Record};
    use crate::numbers::{Operations, Segment, Thread, User};
    use crate::refusal::Refusal;

    #[test]
    fn all_has_every_letter_once() {
        let mut all = Letter::ALL;
        all.sort();
        let known: Vec<Letter> = (0..=255).filter_map(Letter::of).collect();
        assert_eq!(known, all);
        for letter in Letter::ALL {
            assert_eq!(Letter::of(letter.byte()), Some(letter));
            assert!(letter.fields().len() <= 3, "{letter:?}");
        }
    }

    /// A record with 1, 2 and 3 in the fields that the letter names.
    fn record(letter: Letter) -> Record<'static> {
        let field = |place: usize| match place < letter.fields().len() {
            true => place as u16 + 1,
            false => 0,
        };
        Record {
            letter: letter.byte(),
            a: field(0),
            b: field(1),
            c: field(2),
            text: if letter.has_text() { b"U0" } else { b"" },
        }
    }

    #[test]
    fn a_record_is_its_call_and_back() {
        for letter in Letter::ALL {
            let record = record(letter);
            let call = Call::of(&record).expect("a call");
            assert_eq!(call.letter(), letter);
            assert_eq!(Record::from(call), record);
        }
        assert_eq!(
            Call::of(&record(Letter::AddLock)),
            Some(Call::AddLock {
                thread: Thread(1),
                segment: Segment(2),
                operations: Operations(3),
                text: b"U0"
            })
        );
    }

    #[test]
    fn a_guard_and_a_journal_take_a_call() {
        let call = Call::StartThread { user: User(7) };
        let mut guard = Guard::new();
        assert_eq!(guard.call(call), Err(Refusal::UnknownUser));
        assert_eq!(guard.call(Call::NewUser), Ok(0));
        let mut journal = Journal::new();
        assert_eq!(journal.append(call), Ok(()));
        let record = Record {
            letter: b'S',
            a: 7,
            b: 0,
            c: 0,
            text: b"",
        };
        assert!(journal.records().eq([record]));
    }

    #[test]
    fn what_the_guard_answers_18_to_is_no_call() {
        for letter in Letter::ALL {
            let record = record(letter);
            let named = letter.fields().len();
            let changed = [
                Record { a: 9, ..record },
                Record { b: 9, ..record },
                Record { c: 9, ..record },
            ];
            for (place, changed) in changed.iter().enumerate() {
                assert_eq!(Call::of(changed).is_some(), place < named, "{changed:?}");
            }
            let text = Record {
                text: b"x",
                ..record
            };
            assert_eq!(Call::of(&text).is_some(), letter.has_text(), "{letter:?}");
        }
        for byte in (0..=255).filter(|byte| Letter::of(*byte).is_none()) {
            let unknown = Record {
                letter: byte,
                ..record(Letter::NewUser)
            };
            assert_eq!(Call::of(&unknown), None);
        }
    }
}
