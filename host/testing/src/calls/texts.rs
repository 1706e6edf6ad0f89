//! The formula texts of a caller's locks.

use super::Caller;
use reference::limits::{MAX_DEPTH, MAX_TEXT_BYTES};
use std::fmt::Write;

impl Caller<'_> {
    /// A text, mostly a short one that is accepted.
    pub(super) fn text(&mut self) -> Vec<u8> {
        let mut text = String::new();
        match self.random.below(100) {
            0..38 => self.literal(&mut text),
            38..60 => self.joined(&mut text, 2, '&'),
            60..70 => self.joined(&mut text, 2, '|'),
            70..76 => {
                let keys = self.random.between(5, 9);
                let sign = self.random.pick(&['&', '|']);
                self.joined(&mut text, keys, sign);
            }
            76..80 => {
                let key = self.key();
                let _ = write!(text, "{key}&!{key}");
            }
            80..88 => return self.malformed(),
            _ => self.tree(&mut text, 3),
        }
        text.into_bytes()
    }

    /// A key that was handed out, but for a few.
    fn key(&mut self) -> String {
        let (letter, count) = match self.random.below(10) {
            0..4 => ('U', self.users),
            4 => ('R', self.threads_started),
            5..8 => ('S', self.segments.len()),
            _ => ('D', self.makers.len()),
        };
        if count == 0 {
            return "U0".to_string();
        }
        // Low numbers and the last one come more often.
        let number = match self.random.below(4) {
            0 => self.random.below(count),
            1 => count - 1,
            _ => self.random.below(count.min(4)),
        };
        if self.random.one_in(120) {
            return format!("{letter}{count}");
        }
        format!("{letter}{number}")
    }

    fn literal(&mut self, text: &mut String) {
        if self.random.one_in(4) {
            text.push('!');
        }
        *text += &self.key();
    }

    fn joined(&mut self, text: &mut String, keys: usize, sign: char) {
        for place in 0..keys {
            if place > 0 {
                text.push(sign);
            }
            self.literal(text);
        }
    }

    fn tree(&mut self, text: &mut String, levels: usize) {
        match self.random.below(4) {
            0 => self.literal(text),
            _ if levels == 0 => self.literal(text),
            1 => {
                text.push_str("!(");
                self.tree(text, levels - 1);
                text.push(')');
            }
            _ => {
                text.push('(');
                self.tree(text, levels - 1);
                text.push(self.random.pick(&['&', '|']));
                self.tree(text, levels - 1);
                text.push(')');
            }
        }
    }

    fn malformed(&mut self) -> Vec<u8> {
        let mut text = String::new();
        self.joined(&mut text, 2, '&');
        let mut text = text.into_bytes();
        match self.random.below(7) {
            0 => text.clear(),
            1 => text.resize(self.random.between(MAX_TEXT_BYTES + 1, 300), b'!'),
            2 => {
                let place = self.random.below(text.len());
                text[place] = self.random.bits() as u8;
            }
            3 => text.push(b'&'),
            4 => {
                text.remove(self.random.below(text.len()));
            }
            5 => text.insert(0, b'('),
            _ => {
                let deep = self.random.between(MAX_DEPTH, MAX_DEPTH + 1);
                text = [vec![b'('; deep], text, vec![b')'; deep]].concat();
            }
        }
        text
    }
}
