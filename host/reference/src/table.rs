//! Document 01's table of calls, as document 02's P4 leaves it, once: each letter
//! with the fields that its call names, from a on. [`Letter`] and [`Call`] are made
//! of it.

use crate::letter::Field;

macro_rules! calls {
    ($($name:ident = $byte:literal $({ $($field:ident: $of:ident),+ $(; $text:ident)? })?;)*) => {
        /// A call's letter.
        #[derive(Clone, Copy, Debug, PartialEq, Eq, PartialOrd, Ord)]
        #[repr(u8)]
        pub enum Letter {
            $($name = $byte,)*
        }

        impl Letter {
            /// All of them, in document 01's order.
            pub const ALL: [Letter; [$($byte),*].len()] = [$(Letter::$name),*];

            /// The letter that this byte is, if it is one.
            pub const fn of(byte: u8) -> Option<Letter> {
                match byte {
                    $($byte => Some(Letter::$name),)*
                    _ => None,
                }
            }

            /// What its call's fields name, from a on. The others are 0.
            pub const fn fields(self) -> &'static [Field] {
                match self {
                    $(Letter::$name => &[$($(Field::$of),+)?],)*
                }
            }

            /// Whether its call has a text.
            pub const fn has_text(self) -> bool {
                match self {
                    $(Letter::$name => calls!(@has $($($text)?)?),)*
                }
            }
        }

        /// A well formed call, with the fields that its letter names. They may be
        /// any numbers, and name what isn't there.
        #[derive(Clone, Copy, Debug, PartialEq, Eq)]
        pub enum Call<'a> {
            $($name $({ $($field: u16,)+ $($text: &'a [u8],)? })?,)*
        }

        impl<'a> Call<'a> {
            /// The call with this letter, these fields and this text. `None` where
            /// it isn't well formed, which document 01 refuses by 18. Inlined, so
            /// that a `match` on it goes from the letter to its arm at once.
            #[inline(always)]
            pub fn of_parts(letter: u8, fields: [u16; 3], bytes: &'a [u8]) -> Option<Call<'a>> {
                match letter {
                    $($byte if Letter::$name.is_well_formed(fields, bytes.len()) => {
                        $(let [$($field,)+ ..] = fields; $(let $text = bytes;)?)?
                        Some(Call::$name $({ $($field,)+ $($text,)? })?)
                    })*
                    _ => None,
                }
            }

            /// Its letter, its fields, with 0 for those that it doesn't name, and
            /// its text.
            pub fn parts(&self) -> (Letter, [u16; 3], &'a [u8]) {
                let mut fields = [0; 3];
                match *self {
                    $(Call::$name $({ $($field,)+ $($text,)? })? => {
                        let named: &[u16] = &[$($($field),+)?];
                        fields[..named.len()].copy_from_slice(named);
                        (Letter::$name, fields, calls!(@or_none $($($text)?)?))
                    })*
                }
            }
        }
    };
    (@has $text:ident) => { true };
    (@has) => { false };
    (@or_none $text:ident) => { $text };
    (@or_none) => { &[] };
}

calls! {
    NewUser = b'U';
    StartThread = b'S' { user: User };
    EndThread = b'E' { thread: Thread };
    NewSegment = b'N' { thread: Thread, kind: Kind };
    NewKey = b'K' { thread: Thread };
    GiveKey = b'G' { thread: Thread, segment: Segment, key: Key };
    TakeKey = b'T' { thread: Thread, segment: Segment, key: Key };
    AddLock = b'L' { thread: Thread, segment: Segment, operations: Operations; text };
    DropLock = b'D' { thread: Thread, lock: Lock };
    CallSegment = b'C' { thread: Thread, segment: Segment };
    ReturnCall = b'R' { thread: Thread };
    Access = b'A' { thread: Thread, segment: Segment, operation: Operation };
}
