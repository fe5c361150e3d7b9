//! Scripts of calls on predictions, the matcher and its cache: the records that `replay::road` takes.
use crate::cache::script::Ending;
use crate::matching::script as matching;

/// Words of an answer, and those before the heights.
pub const ANSWER: usize = 272;
pub const HEAD: usize = 16;
/// The heights of an answer: 501 samples, then 11 behind.
pub const HEIGHTS: usize = 512;
pub const AHEAD: usize = 501;

/// The record of a prediction: horizon's bits, mark.
pub const ROAD: u32 = 64;

pub const IS_ROAD: u32 = 18;
pub const REMATCH: u32 = 19;
/// The ends of a road, in the order of their numbers.
const ENDS: [&str; 6] = ["Horizon", "Fork", "DeadEnd", "MapEdge", "Uncertain", "Memory"];

/// An answer: the words before the heights, and the heights where the record has them.
#[derive(Clone)]
pub struct Answer {
    pub head: [u32; HEAD],
    pub heights: Option<Box<[i16; HEIGHTS]>>,
}

impl Answer {
    pub fn ending(&self) -> Ending {
        self.head[..4].try_into().expect("four words")
    }

    /// Word `n` of the heights: two of them, the first in the low half.
    fn pair(&self, n: usize) -> u32 {
        let Some(heights) = &self.heights else {
            return 0;
        };
        let [low, high] = [heights[2 * n], heights[2 * n + 1]].map(|height| height as u16);
        u32::from(low) | u32::from(high) << 16
    }

    /// All 272 words.
    pub fn words(&self) -> impl Iterator<Item = u32> + '_ {
        self.head.into_iter().chain((0..HEIGHTS / 2).map(|n| self.pair(n)))
    }

    /// A name for how it ended, and the number of one that failed or was refused.
    pub fn told(&self) -> (&'static str, u32) {
        told(&self.head)
    }
}

/// The same of an answer's first words.
pub fn told(head: &[u32]) -> (&'static str, u32) {
    match head[0] {
        IS_ROAD => (ENDS.get(head[9] as usize).unwrap_or(&"no end"), 0),
        REMATCH => ("Rematch", 0),
        _ => matching::told(head[..4].try_into().expect("four words")),
    }
}
