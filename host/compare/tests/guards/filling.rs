//! Arrays that no list of calls leads to.

use compare::guard::Cells;
use testing::random::Random;

/// Numbers around which something could break: counts, limits, places, codes of
/// keys, and the ends of a cell.
pub const EDGES: [u32; 26] = [
    0,
    1,
    2,
    3,
    4,
    7,
    8,
    9,
    15,
    16,
    17,
    31,
    32,
    33,
    63,
    64,
    65,
    1_023,
    1_024,
    1_088,
    32_767,
    32_768,
    65_535,
    65_536,
    65_537,
    u32::MAX,
];

/// How the cells are filled.
#[derive(Clone, Copy)]
pub enum Filling {
    /// Any numbers.
    Anything,
    /// Numbers at the edges.
    Edges,
    /// Small numbers, so that calls find what they name.
    Small,
    /// A state that calls lead to, with some cells overwritten.
    Damaged,
}

pub const FILLINGS: [Filling; 4] = [
    Filling::Anything,
    Filling::Edges,
    Filling::Small,
    Filling::Damaged,
];

impl Filling {
    fn number(self, random: &mut Random) -> u32 {
        match self {
            Filling::Anything => random.bits() as u32,
            Filling::Edges => random.pick(&EDGES),
            Filling::Small => {
                let limit = random.pick(&[2, 4, 20, 70]);
                random.below(limit) as u32
            }
            Filling::Damaged => match random.below(3) {
                0 => random.bits() as u32,
                1 => random.pick(&EDGES),
                _ => random.below(70) as u32,
            },
        }
    }

    /// Fills them, or those of a damaged state that are to be another number.
    pub fn fill(self, random: &mut Random, cells: &mut Cells) {
        // Of a damaged state one cell in 2 to 1,024 is another.
        let share = match self {
            Filling::Damaged => 2 << random.below(10),
            _ => 1,
        };
        let large = cells.locks.as_flattened_mut().as_flattened_mut();
        for cell in cells.registry.iter_mut().chain(large) {
            if random.one_in(share) {
                *cell = self.number(random);
            }
        }
        let segments = cells.segments.as_flattened_mut().as_flattened_mut();
        let threads = cells.threads.as_flattened_mut().as_flattened_mut();
        for cell in cells.makers.iter_mut().chain(segments).chain(threads) {
            if random.one_in(share) {
                *cell = self.number(random) as u16;
            }
        }
    }
}
