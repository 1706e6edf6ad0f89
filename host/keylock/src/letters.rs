//! The calls' letters and fields in words, for messages and for the help.

pub use rotundaaloe::{Field, Letter};

/// A field in words.
pub struct FieldWords {
    /// With its article.
    pub name: &'static str,
    /// As the help writes it.
    pub placeholder: &'static str,
    /// The values that mean something, where they are few.
    pub values: &'static str,
}

pub fn field(field: Field) -> FieldWords {
    let words = |name, placeholder| FieldWords {
        name,
        placeholder,
        values: "",
    };
    match field {
        Field::User => words("a user", "USER"),
        Field::Thread => words("a thread", "THREAD"),
        Field::Segment => words("a segment", "SEGMENT"),
        Field::Key => words("a key", "KEY"),
        Field::Lock => words("a lock", "LOCK"),
        Field::Kind => FieldWords {
            values: "0 code or 1 sheet",
            ..words("a kind", "KIND")
        },
        Field::Operations => FieldWords {
            values: "1 execute, 2 read, 4 write, their sum, and 8 more to deny",
            ..words("operations", "OPS")
        },
        Field::Operation => FieldWords {
            values: "2 read or 4 write",
            ..words("an operation", "OP")
        },
    }
}

/// What a letter's call does, as the help says it.
fn summary(letter: Letter) -> &'static str {
    match letter {
        Letter::NewUser => "a new user",
        Letter::StartThread => "start a thread",
        Letter::EndThread => "end it",
        Letter::NewSegment => "a new segment: 0 code, 1 sheet",
        Letter::NewKey => "a new key",
        Letter::GiveKey => "give the key to the segment",
        Letter::TakeKey => "take it, from open calls too",
        Letter::AddLock => "lock: 1 execute, 2 read, 4 write, and 8 to deny",
        Letter::DropLock => "drop the lock",
        Letter::CallSegment => "call",
        Letter::ReturnCall => "return",
        Letter::Access => "access: 2 read, 4 write",
    }
}

/// A line of the help for each letter: `S USER`, and what it does.
pub fn table() -> String {
    let line = |letter: Letter| {
        let mut call = letter.char().to_string();
        for named in letter.fields() {
            call = call + " " + field(*named).placeholder;
        }
        if letter.has_text() {
            call += " FORMULA";
        }
        format!("  {call:28}  {}\n", summary(letter))
    };
    Letter::ALL.into_iter().map(line).collect()
}
