//! Scripts of calls on an engine, and their answers: the records that `replay::engine` takes.
use crate::cache::script::Ending;

/// Words of an answer, and those before the heights.
pub const ANSWER: usize = 320;
pub const HEAD: usize = 64;
/// The heights of an answer: 501 samples, then 11 behind.
pub const HEIGHTS: usize = 512;

pub const NEW: u32 = 1;
pub const FIX: u32 = 2;
pub const LOST: u32 = 3;
pub const RESET: u32 = 4;
pub const STEP: u32 = 5;
pub const DELIVER: u32 = 6;
pub const STEP_FROM: u32 = 7;
pub const GET: u32 = 16;
pub const LOAD_FROM: u32 = 17;
pub const CLEAR: u32 = 18;
pub const SET: u32 = 32;

/// The counts that a record sets.
pub const CLOCK: u32 = 0;
pub const USED: u32 = 1;
pub const LOADS: u32 = 2;
pub const STEPS: u32 = 3;
pub const GENERATION: u32 = 4;

/// How a delivery is made.
pub const BYTES: u32 = 0;
pub const MISSED: u32 = 1;
pub const PAST: u32 = 2;
pub const SHORT: u32 = 3;
pub const UNKNOWN: u32 = 4;

pub const IDLE: u32 = 0;
pub const WORKING: u32 = 1;
pub const NO_PACK: u32 = 2;
pub const OFF_MAP: u32 = 3;
pub const FETCH: u32 = 4;
pub const DONE: u32 = 5;
pub const REFUSED: u32 = 6;
pub const READY: u32 = 16;
pub const MISSING: u32 = 17;
pub const ABSENT: u32 = 18;
pub const LOADED: u32 = 19;
pub const MORE: u32 = 20;
pub const FAILED: u32 = 21;
pub const CLEARED: u32 = 22;
pub const IS_SET: u32 = 23;
pub const OTHER: u32 = 63;

/// How an answer can end, and its number.
pub const ENDINGS: [(u32, &str); 16] = [
    (IDLE, "Idle"),
    (WORKING, "Working"),
    (NO_PACK, "NoPack"),
    (OFF_MAP, "OffMap"),
    (FETCH, "Fetch"),
    (DONE, "done"),
    (REFUSED, "Refused"),
    (READY, "Ready"),
    (MISSING, "Missing"),
    (ABSENT, "Absent"),
    (LOADED, "Done"),
    (MORE, "More"),
    (FAILED, "Failed"),
    (CLEARED, "Cleared"),
    (IS_SET, "set"),
    (OTHER, "another kind"),
];

/// Places of some words: the road's length, the phase, the key needed.
pub const LEN: usize = 30;
pub const PHASE: usize = 36;
pub const NEED: usize = 43;
/// Places of words that are bits of a match's figures: zeros of either sign count equal there.
const FIGURES: [usize; 3] = [21, 23, 28];

/// An answer: the words before the heights, and the heights.
#[derive(Clone)]
pub struct Answer {
    pub head: [u32; HEAD],
    pub heights: Box<[i16; HEIGHTS]>,
}

impl Answer {
    pub fn ending(&self) -> Ending {
        self.head[..4].try_into().expect("four words")
    }

    /// Word `n` of the heights: two of them, the first in the low half.
    fn pair(&self, n: usize) -> u32 {
        let [low, high] = [2 * n, 2 * n + 1].map(|n| self.heights[n] as u16);
        u32::from(low) | u32::from(high) << 16
    }

    /// All 320 words.
    pub fn words(&self) -> impl Iterator<Item = u32> + '_ {
        self.head.into_iter().chain((0..HEIGHTS / 2).map(|n| self.pair(n)))
    }

    pub fn told(&self) -> (&'static str, u32) {
        told(self.ending())
    }
}

/// A name for an ending, and the number of one that failed or was refused.
pub fn told(ending: Ending) -> (&'static str, u32) {
    let name = ENDINGS.iter().find(|(how, _)| *how == ending[0]).map_or("no ending", |end| end.1);
    (name, if [REFUSED, FAILED].contains(&ending[0]) { ending[1] } else { 0 })
}

/// Whether word `n` of an answer is the same in both.
pub fn same(n: usize, port: u32, rust: u32) -> bool {
    port == rust || FIGURES.contains(&(n % ANSWER)) && (port | rust) << 1 == 0
}
