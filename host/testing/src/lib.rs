//! What tests and measurements draw from. From a repeatable source of numbers,
//! [`random`], come [`calls`] in lists, the same lists with other [`neighbours`],
//! lists of [`withdrawals`] and of locks of every [`tightness`], formula [`texts`],
//! [`journals`], and [`rows`] for a listing to fill. By hand from documents 01 and 02
//! are [`trials`], calls with their answers, and [`written`], records with their bytes.
//! [`shapes`] are formula texts of each shape. A [`choice`] of a lock may be wrong, and
//! the [`faults`] of guards must be found.

pub mod calls;
pub mod choice;
mod draft;
pub mod faults;
pub mod journals;
pub mod neighbours;
pub mod random;
pub mod rows;
pub mod shapes;
pub mod texts;
pub mod tightness;
pub mod trials;
pub mod withdrawals;
pub mod written;
