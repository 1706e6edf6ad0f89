//! Text for a terminal, in ANSI colours if asked for.

use crate::shown;

/// How a piece of text looks.
#[derive(Clone, Copy)]
pub enum Look {
    Plain,
    Quiet,
    Strong,
    Good,
    Bad,
    Alarm,
}

#[derive(Clone, Copy)]
pub struct Paint {
    pub colour: bool,
}

impl Paint {
    /// The text made harmless: a note could hold what moves the cursor.
    pub fn text(self, look: Look, text: &str) -> String {
        let text = shown::escaped(text);
        let code = match look {
            Look::Quiet => "2",
            Look::Strong => "1",
            Look::Good => "32",
            Look::Bad => "31",
            Look::Alarm => "1;7;31",
            Look::Plain => return text,
        };
        match self.colour {
            true => format!("\x1b[{code}m{text}\x1b[0m"),
            false => text,
        }
    }
}
