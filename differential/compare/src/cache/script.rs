//! Scripts of calls on a cache, and the endings of their answers: the records that
//! `replay::cache` takes.
use oracle_cache::pack::TileKey;

pub type Record = [u32; 6];
/// The first four words of an answer.
pub type Ending = [u32; 4];
/// Words of an answer.
pub const ANSWER: usize = 471;
pub type Answer = [u32; ANSWER];

pub const NO_KEY: u32 = u32::MAX;
pub const GET: u32 = 1;
pub const FETCH: u32 = 2;
pub const LOAD: u32 = 3;
pub const STEP: u32 = 4;
pub const LOAD_FROM: u32 = 5;
pub const CLEAR: u32 = 6;
pub const PAGES: u32 = 7;
pub const CAPACITY: u32 = 8;
pub const LOADS: u32 = 9;
pub const SET_CLOCK: u32 = 16;
pub const SET_USED: u32 = 17;
pub const SET_SLOT: u32 = 18;
pub const SET_PLACE: u32 = 19;
pub const SET_MISSING: u32 = 20;
pub const SET_LOADING: u32 = 21;
pub const SET_PENDING: u32 = 22;
pub const SET_COUNT: u32 = 23;
pub const SET_BYTE: u32 = 24;
pub const SET_LENT: u32 = 25;
pub const SET_HEADER: u32 = 26;
pub const SET_LOADS: u32 = 27;

/// How an answer can end, in the order of its numbers.
pub const ENDINGS: [&str; 13] = [
    "set up",
    "Ready",
    "Missing",
    "Absent",
    "Settled",
    "Read",
    "Done",
    "More",
    "Failed",
    "Is",
    "Cleared",
    "Refused",
    "another kind",
];
pub const READY: u32 = 1;
pub const MISSING: u32 = 2;
pub const ABSENT: u32 = 3;
pub const SETTLED: u32 = 4;
pub const READ: u32 = 5;
pub const DONE: u32 = 6;
pub const MORE: u32 = 7;
pub const FAILED: u32 = 8;
pub const IS: u32 = 9;
pub const CLEARED: u32 = 10;
pub const REFUSED: u32 = 11;
pub const OTHER: u32 = 12;

/// A record of up to five words.
pub fn record(kind: u32, words: &[u32]) -> Record {
    let mut record = [kind, 0, 0, 0, 0, 0];
    record[1..=words.len()].copy_from_slice(words);
    record
}

pub fn ends(how: u32) -> Ending {
    [how, 0, 0, 0]
}

/// A name for an ending, and the number of one that failed or was refused.
pub fn told(ending: Ending) -> (&'static str, u32) {
    let numbered = [FAILED, REFUSED].contains(&ending[0]);
    (ENDINGS.get(ending[0] as usize).unwrap_or(&"no ending"), if numbered { ending[1] } else { 0 })
}

pub fn word(key: TileKey) -> u32 {
    u32::from(key.row) << 16 | u32::from(key.col)
}

pub fn key(word: u32) -> TileKey {
    TileKey { row: (word >> 16) as u16, col: word as u16 }
}
