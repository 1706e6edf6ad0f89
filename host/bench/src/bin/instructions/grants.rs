//! The scenes of the check where several grant locks open, each of one product. The
//! lock whose product has the most literals answers, the lowest of equal ones.

use crate::checks;
use crate::scenes::Scene;
use bench::route::{self, SHEET, THREAD};
use bench::stage::Stage;
use reference::limits::MAX_FRAMES;
use reference::operations::WRITE;
use testing::calls::call;

/// How many locks open, and how their literals follow each other.
#[derive(Clone, Copy)]
pub enum Grants {
    TwoEqual,
    TwoRising,
    Equal,
    /// A lock that opens replaces the one before it, until the sixth.
    Rising,
    /// The first lock has as many literals as a product can, so no later one can
    /// replace it.
    Falling,
}

/// What the oldest open call has handed over: its own key and the defined ones.
const KEYS: [&str; 8] = ["D1", "D2", "D3", "D4", "D5", "D6", "D7", "S0"];

impl Grants {
    pub const ALL: [Grants; 5] = [
        Grants::TwoEqual,
        Grants::TwoRising,
        Grants::Equal,
        Grants::Rising,
        Grants::Falling,
    ];

    /// The case in words.
    pub fn name(self) -> &'static str {
        match self {
            Grants::TwoEqual => "two, equal",
            Grants::TwoRising => "two, rising",
            Grants::Equal => "eight, equal",
            Grants::Rising => "eight, rising",
            Grants::Falling => "eight, falling",
        }
    }

    /// The literals of each lock's product, by rising lock number.
    pub fn literals(self) -> &'static [usize] {
        match self {
            Grants::TwoEqual => &[2, 2],
            Grants::TwoRising => &[1, 2],
            Grants::Equal => &[2; 8],
            Grants::Rising => &[1, 2, 3, 4, 5, 6, 6, 6],
            Grants::Falling => &[6, 6, 6, 5, 4, 3, 2, 1],
        }
    }

    /// The place, 0 for the first, of the lock that answers.
    pub fn answering(self) -> u16 {
        match self {
            Grants::TwoEqual | Grants::Equal | Grants::Falling => 0,
            Grants::TwoRising => 1,
            Grants::Rising => 5,
        }
    }

    pub fn depths(self) -> &'static [u16] {
        match self {
            Grants::Equal | Grants::Rising => &[1, MAX_FRAMES as u16],
            _ => &[1],
        }
    }

    /// The locks' texts. Each begins with another key, so no two are the same.
    fn texts(self) -> Vec<String> {
        let literals = self.literals().iter().enumerate();
        let keys = |first: usize| KEYS.into_iter().cycle().skip(first);
        literals
            .map(|(first, count)| keys(first).take(*count).collect::<Vec<_>>().join("&"))
            .collect()
    }

    /// The scene's name.
    pub fn scene_name(self, depth: u16) -> String {
        format!("check, locks that open: {}, depth {depth}", self.name())
    }

    /// Every lock opens on both guards where it is the only one. Nothing is counted.
    pub fn tried(self) {
        for depth in self.depths() {
            for text in self.texts() {
                let mut stage = Stage::after(&route::calls(*depth, 0, &[text]));
                stage.accept(&[call(b'A', THREAD, SHEET, WRITE)]);
            }
        }
    }

    pub fn scenes(self) -> impl Iterator<Item = Scene> {
        self.depths().iter().map(move |depth| {
            let before = route::calls(*depth, 0, &self.texts());
            checks::of_sheet(self.scene_name(*depth), before, self.answering())
        })
    }
}
