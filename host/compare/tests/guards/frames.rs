//! The open calls in the array of threads, and what an accepted T makes of them
//! (document 02, P5).

use reference::limits::MAX_FRAMES;
use rotundaaloe::raw::Threads;

/// What the proved guard knows of a thread, and its frames, the oldest first.
pub type Table = <Threads as IntoIterator>::Item;
/// A frame: its segment, then the other keys of its list.
pub type Frame = [u16; 8];

/// The cells of row 0 with the number of frames, and with a mark if a thread is live
/// at the place.
pub const FRAMES: usize = 2;
pub const LIVE: usize = 3;
/// The cell of a key that isn't there.
pub const NO_KEY: u16 = u16::MAX;

/// The cell of a defined key. Those of S keys are below.
pub fn code(key: u16) -> u16 {
    64 + key
}

/// How many frames there are. A count above the most is read as the most.
pub fn depth(table: &Table) -> usize {
    MAX_FRAMES.min(usize::from(table[0][FRAMES]))
}

/// The frames of a place, be a thread live there or not.
pub fn frames(table: &mut Table) -> &mut [Frame] {
    let depth = depth(table);
    &mut table[1..=depth]
}

/// Takes the key out of a frame. Answers whether it was there.
pub fn strike(frame: &mut Frame, key: u16) -> bool {
    let code = code(key);
    let was_there = frame.contains(&code);
    for cell in frame.iter_mut().filter(|cell| **cell == code) {
        *cell = NO_KEY;
    }
    was_there
}

/// Takes the key out of every frame of the segment, at every place. No other cell is
/// another. Answers how many frames had it.
pub fn withdraw(threads: &mut Threads, segment: u16, key: u16) -> usize {
    let frames = threads.iter_mut().flat_map(frames);
    let of_segment = frames.filter(|frame| frame[0] == segment);
    of_segment
        .map(|frame| usize::from(strike(frame, key)))
        .sum()
}
