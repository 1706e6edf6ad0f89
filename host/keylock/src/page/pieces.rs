//! Pieces of a page that stand in many of its steps. A piece is kept once, and
//! `<5>` stands for the sixth wherever it belongs: no tag begins with a digit, and
//! texts have no bare `<`.

use std::collections::HashMap;

#[derive(Default)]
pub struct Pieces {
    places: HashMap<String, usize>,
}

impl Pieces {
    /// Keeps a piece. What is given back stands for it.
    pub fn share(&mut self, piece: String) -> String {
        let next = self.places.len();
        let place = *self.places.entry(piece).or_insert(next);
        format!("<{place}>")
    }

    /// All of them, each at its place.
    pub fn into_list(self) -> Vec<String> {
        let mut list: Vec<(String, usize)> = self.places.into_iter().collect();
        list.sort_by_key(|(_, place)| *place);
        list.into_iter().map(|(piece, _)| piece).collect()
    }
}

/// The text with the pieces where they belong.
pub fn whole(text: &str, pieces: &[String]) -> String {
    let mut whole = String::new();
    add_whole(text, pieces, &mut whole);
    whole
}

fn add_whole(text: &str, pieces: &[String], whole: &mut String) {
    let mut rest = text;
    while let Some(start) = rest.find('<') {
        *whole += &rest[..start];
        rest = &rest[start + 1..];
        match place(rest) {
            Some((place, after)) => {
                add_whole(&pieces[place], pieces, whole);
                rest = after;
            }
            None => whole.push('<'),
        }
    }
    *whole += rest;
}

/// The place in `5>`, and what follows.
fn place(text: &str) -> Option<(usize, &str)> {
    let digits = text.bytes().take_while(u8::is_ascii_digit).count();
    let (place, after) = text.split_at(digits);
    Some((place.parse().ok()?, after.strip_prefix('>')?))
}

#[cfg(test)]
mod tests {
    use super::{Pieces, whole};

    #[test]
    fn a_piece_is_kept_once_and_comes_back() {
        let mut pieces = Pieces::default();
        let key = pieces.share("<b>S0</b>".to_string());
        let row = pieces.share(format!("<p>{key} {key}</p>"));
        assert_eq!(pieces.share("<b>S0</b>".to_string()), key);
        let text = format!("<i title=\"{row}\">1 &lt;0&gt;</i>{key}");
        let pieces = pieces.into_list();
        assert_eq!(pieces.len(), 2);
        assert_eq!(
            whole(&text, &pieces),
            "<i title=\"<p><b>S0</b> <b>S0</b></p>\">1 &lt;0&gt;</i><b>S0</b>"
        );
    }
}
