//! Circuits in AIGER text. Both ways go byte by byte, with a table or a room that is lent and nothing that is allocated.

mod read;
mod write;

use super::problem;
pub use read::{read, LONGEST_TEXT};
pub use write::write;

const HEADER: usize = 4;

/// The limits of I, L, A, O.
pub const MOST: [u32; HEADER] = [problem::MOST[0], problem::MOST[1], problem::MOST[2], 64];

/// The words of a circuit at all limits.
pub const MOST_WORDS: usize = HEADER + 2 * (MOST[1] + MOST[2]) as usize + MOST[3] as usize;
