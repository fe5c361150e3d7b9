//! Scripts of calls run over the functions of include/terrain.h, on words that are lent to them.
//! Each answer tells the state by its words.
mod cache;
mod engine;
pub mod layout;
mod matching;
mod road;

use crate::cache::script::{NO_KEY, Record};

/// Stands in every byte and word beside what is lent.
const MARK: u8 = 0xa7;
const MARKS: [u32; 16] = [0xa7a7_a7a7; 16];
/// Bytes beside the arena.
const BESIDE: usize = 64;

/// Words that are lent, with marks on both sides.
#[derive(Clone)]
#[repr(C)]
pub struct Lent<const N: usize> {
    before: [u32; 16],
    pub is: [u32; N],
    behind: [u32; 16],
}

impl<const N: usize> Default for Lent<N> {
    fn default() -> Self {
        Self { before: MARKS, is: [0; N], behind: MARKS }
    }
}

impl<const N: usize> Lent<N> {
    /// Nothing was written beside the words.
    pub fn alone(&self) -> bool {
        self.before == MARKS && self.behind == MARKS
    }
}

/// What scripts of one kind work on.
trait Script: Clone {
    /// Words of an answer.
    const ANSWER: usize;
    fn new(pack: &[u8], arena: &[u8]) -> Self;
    /// One record, and its answer.
    fn answered(&mut self, r: &Record, pack: &[u8], arena: &mut [u8], out: &mut Vec<u32>);
    /// One record, and how it ended as one number.
    fn marked(&mut self, record: &Record, pack: &[u8], arena: &mut [u8]) -> u32;
    /// Sets the clock.
    fn wind(&mut self, clock: u32);
    /// Nothing was written beside what was lent.
    fn alone(&self) -> bool;
}

/// What a script answers, and the arena after it.
#[derive(PartialEq)]
pub struct Replayed {
    pub words: Vec<u32>,
    pub arena: Vec<u8>,
    /// Nothing was written beside what was lent.
    pub alone: bool,
}

/// A script on a cache.
pub fn replay(script: &[Record], pack: &[u8], arena: &[u8]) -> Replayed {
    replayed::<cache::Session>(script, pack, arena)
}

/// A script on a matcher and its cache.
pub fn replay_matches(script: &[Record], pack: &[u8], arena: &[u8]) -> Replayed {
    replayed::<matching::State>(script, pack, arena)
}

/// A script on predictions, a matcher and its cache.
pub fn replay_roads(script: &[Record], pack: &[u8], arena: &[u8]) -> Replayed {
    replayed::<road::Roads>(script, pack, arena)
}

/// A script on an engine; the packs are joined as it takes them.
pub fn replay_engine(script: &[Record], packs: &[u8], arena: &[u8]) -> Replayed {
    replayed::<engine::State>(script, packs, arena)
}

/// Runs the records up to one of kind 0, and looks at what lies beside the arena and the words.
fn replayed<S: Script>(script: &[Record], pack: &[u8], arena: &[u8]) -> Replayed {
    let (len, marks) = (arena.len(), [MARK; BESIDE]);
    let mut around = [&marks, arena, &marks].concat();
    let lent = &mut around[BESIDE..BESIDE + len];
    let mut state = S::new(pack, lent);
    let mut words = Vec::with_capacity(script.len() * S::ANSWER);
    for record in script.iter().take_while(|record| record[0] != 0) {
        state.answered(record, pack, lent, &mut words);
    }
    let mut beside = around[..BESIDE].iter().chain(&around[BESIDE + len..]);
    let alone = beside.all(|&byte| byte == MARK) && state.alone();
    Replayed { words, arena: around[BESIDE..BESIDE + len].to_vec(), alone }
}

/// For timing: the script's last record `times` times, each from the state that the others leave,
/// and no answers. The clock is another each time; the sum of how they ended.
pub fn repeat(script: &[Record], pack: &[u8], arena: &mut [u8], times: u32) -> u32 {
    repeated::<cache::Session>(script, pack, arena, times)
}

pub fn repeat_roads(script: &[Record], pack: &[u8], arena: &mut [u8], times: u32) -> u32 {
    repeated::<road::Roads>(script, pack, arena, times)
}

pub fn repeat_engine(script: &[Record], packs: &[u8], arena: &mut [u8], times: u32) -> u32 {
    repeated::<engine::State>(script, packs, arena, times)
}

/// The state that a script on a matcher leaves, for timing calls on it by themselves.
pub fn left_by_matches(script: &[Record], pack: &[u8], arena: &mut [u8]) -> matching::State {
    let mut state = matching::State::new(pack, arena);
    for record in script {
        state.taken(record, pack, arena);
    }
    state
}

fn repeated<S: Script>(script: &[Record], pack: &[u8], arena: &mut [u8], times: u32) -> u32 {
    let Some((last, others)) = script.split_last() else {
        return 0;
    };
    let mut state = S::new(pack, arena);
    for record in others {
        state.marked(record, pack, arena);
    }
    let mut one = |clock| {
        let mut state = state.clone();
        state.wind(clock);
        state.marked(last, pack, arena)
    };
    (0..times).fold(0, |sum: u32, clock| sum.wrapping_add(one(clock)))
}

/// Whether there is a key, and the key or 0.
fn maybe(key: u32) -> [u32; 2] {
    if key == NO_KEY { [0, 0] } else { [1, key] }
}

/// The key of two such words, or no key.
fn key_word(words: &[u32]) -> u32 {
    if words[0] == 1 { words[1] } else { NO_KEY }
}
