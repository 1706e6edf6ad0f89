//! A call with its fields by name. Whoever goes by letters matches on it.

use crate::journal::Record;
use crate::letter::Letter;

pub use crate::table::Call;

impl<'a> Call<'a> {
    /// The call of a record. `None` where document 01 refuses it by 18: an unknown
    /// letter, an unnamed field that isn't 0, a text outside L.
    pub fn of(record: &'a Record) -> Option<Call<'a>> {
        let fields = [record.a, record.b, record.c];
        Call::of_parts(record.letter, fields, &record.text)
    }

    pub fn letter(&self) -> Letter {
        self.parts().0
    }
}

impl From<Call<'_>> for Record {
    fn from(call: Call) -> Record {
        let (letter, [a, b, c], text) = call.parts();
        Record {
            letter: letter.byte(),
            a,
            b,
            c,
            text: text.to_vec(),
        }
    }
}
