//! Scripts of calls on a matcher and its cache: the records that `replay::matching` takes.
use super::super::cache::script::{self as cache, NO_KEY};
use oracle_angles::matcher::{Matched, Matcher};
use oracle_angles::pack::TileKey;
use oracle_angles::tile::TileId;

/// Words of an answer.
pub const ANSWER: usize = 64;
pub type Answer = [u32; ANSWER];

pub const UPDATE: u32 = 32;
pub const RESET: u32 = 33;
pub const CURRENT: u32 = 34;
pub const NEARBY: u32 = 35;
pub const SET_MATCH: u32 = 48;
pub const SET_CHALLENGER: u32 = 49;
pub const SET_MISSES: u32 = 50;
pub const SET_NO_MATCH: u32 = 51;

pub const FOUND: u32 = 13;
pub const NOTHING: u32 = 14;
pub const NEED: u32 = 15;
pub const KEYS: u32 = 16;
pub const WAS_RESET: u32 = 17;
const ENDINGS: [&str; 5] = ["Found", "Nothing", "Need", "keys", "reset"];

/// Places of an answer's words that are bits of figures: zeros of either sign count equal there.
const FIGURES: [usize; 7] = [15, 17, 22, 29, 31, 36, 43];

/// A name for an ending, and the number of one that failed or was refused.
pub fn told(ending: [u32; 4]) -> (&'static str, u32) {
    match ending[0].checked_sub(FOUND).and_then(|n| ENDINGS.get(n as usize)) {
        Some(name) => (name, 0),
        None => cache::told(ending),
    }
}

/// Whether word `n` of an answer is the same in both.
pub fn same(n: usize, port: u32, rust: u32) -> bool {
    port == rust || FIGURES.contains(&(n % ANSWER)) && (port | rust) << 1 == 0
}

/// A figure's bits; of a not-a-number always the same.
pub fn figure(x: f32) -> u32 {
    if x.is_nan() { 0x7fc0_0000 } else { x.to_bits() }
}

pub fn tile_key(word: u32) -> TileKey {
    TileKey { row: (word >> 16) as u16, col: word as u16 }
}

pub fn key_word(key: TileKey) -> u32 {
    u32::from(key.row) << 16 | u32::from(key.col)
}

pub fn of_id(id: TileId, edge: u16) -> [u32; 4] {
    [key_word(id.key), id.crc, id.edges.into(), edge.into()]
}

pub fn of_match(m: &Matched) -> Vec<u32> {
    let direction = m.forward.map_or(0, |forward| 1 + u32::from(forward));
    let rest = [
        m.segment.into(),
        figure(m.fraction),
        direction,
        figure(m.offset_m),
        m.z_dm as u32,
        m.class.into(),
        m.flags.into(),
        m.confidence.into(),
        figure(m.ridden_m),
    ];
    of_id(m.tile, m.edge).into_iter().chain(rest).collect()
}

/// A match's words, or zeros.
pub fn of_maybe(m: Option<&Matched>) -> Vec<u32> {
    m.map_or(vec![0; 13], of_match)
}

/// The matcher's words of an answer.
pub fn of_matcher(m: &Matcher) -> Vec<u32> {
    let challenger = m.challenger.map_or([NO_KEY, 0, 0, 0, 0], |(id, edge, count)| {
        let [key, crc, edges, edge] = of_id(id, edge);
        [key, crc, edges, edge, count.into()]
    });
    let current = [u32::from(m.current.is_some())].into_iter().chain(of_maybe(m.current.as_ref()));
    current.chain(challenger).chain([m.misses.into(), figure(m.run_from_m)]).collect()
}
