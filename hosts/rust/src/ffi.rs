//! The engine's functions of include/terrain.h, and what crosses by value.
use crate::predict::{BEHIND_SAMPLES, MAX_SAMPLES};

/// Words of an engine.
pub const WORDS: usize = 1150;
pub type Engine = [u32; WORDS];

pub const IDLE: u32 = 0;
pub const WORKING: u32 = 1;
pub const OFF_MAP: u32 = 3;
pub const FETCH: u32 = 4;

#[repr(C)]
#[derive(Clone, Copy)]
pub struct Step {
    pub number: u32,
    pub status: u32,
    pub offset: u64,
    pub len: u64,
}

#[repr(C)]
pub struct Match {
    pub matched: u32,
    pub row: u16,
    pub col: u16,
    pub crc: u32,
    pub edges: u16,
    pub edge: u16,
    pub segment: u16,
    pub fraction: f32,
    pub forward: u32,
    pub offset_m: f32,
    pub z_dm: i32,
    pub class: u8,
    pub flags: u8,
    pub confidence: u8,
    pub ridden_m: f32,
}

#[repr(C)]
pub struct Ahead {
    pub number: u32,
    pub generation: u32,
    pub at_ms: u64,
    pub matched: Match,
    pub start_z_dm: i32,
    pub samples: [i16; MAX_SAMPLES],
    pub len: usize,
    pub behind: [i16; BEHIND_SAMPLES],
    pub behind_len: usize,
    pub behind_m: f32,
    pub end: u32,
    pub end_m: f32,
    pub confidence: u8,
    pub on_road: u32,
}

#[repr(C)]
pub struct Header {
    pub number: u32,
    pub known: u32,
    pub tile: u32,
    pub south: i32,
    pub west: i32,
    pub rows: u16,
    pub cols: u16,
    pub directory: u32,
    pub data: u32,
    pub total: u32,
    pub tiles: u32,
    pub created: u64,
    pub attribution_offset: u32,
    pub attribution_len: u32,
}

#[repr(C)]
pub struct Heading {
    pub number: u32,
    pub known: u32,
    pub degrees: f32,
}

#[repr(C)]
pub struct Count {
    pub number: u32,
    pub count: u32,
}

unsafe extern "C" {
    fn terrain_new(engine: &mut Engine, arena: *const u8, arena_len: usize, horizon_m: f32);
    fn terrain_fix(
        engine: &mut Engine,
        arena: *const u8,
        arena_len: usize,
        lat: i32,
        lon: i32,
        at_ms: u64,
    ) -> u32;
    fn terrain_lost(engine: &mut Engine, arena: *const u8, arena_len: usize) -> u32;
    fn terrain_reset(engine: &mut Engine, arena: *const u8, arena_len: usize) -> u32;
    fn terrain_step(engine: &mut Engine, arena: *const u8, arena_len: usize) -> Step;
    fn terrain_deliver(
        engine: &mut Engine,
        arena: *mut u8,
        arena_len: usize,
        failure: u32,
        bytes: *const u8,
        bytes_len: usize,
    ) -> Step;
    fn terrain_ahead(engine: &Engine, arena: *const u8, arena_len: usize) -> Ahead;
    fn terrain_header(engine: &Engine, arena: *const u8, arena_len: usize) -> Header;
    fn terrain_heading(engine: &Engine, arena: *const u8, arena_len: usize) -> Heading;
    fn terrain_loads(engine: &Engine, arena: *const u8, arena_len: usize) -> Count;
    fn terrain_steps(engine: &Engine, arena: *const u8, arena_len: usize) -> Count;
}

// SAFETY, of every call here: pointers and counts are those of a slice or a reference, what is
// written is lent for writing, and no two of them overlap. Each function is total: it has an answer
// for every bit pattern.

pub fn new(engine: &mut Engine, arena: &[u8], horizon_m: f32) {
    unsafe { terrain_new(engine, arena.as_ptr(), arena.len(), horizon_m) }
}

pub fn fix(engine: &mut Engine, arena: &[u8], lat: i32, lon: i32, at_ms: u64) -> u32 {
    unsafe { terrain_fix(engine, arena.as_ptr(), arena.len(), lat, lon, at_ms) }
}

pub fn lost(engine: &mut Engine, arena: &[u8]) -> u32 {
    unsafe { terrain_lost(engine, arena.as_ptr(), arena.len()) }
}

pub fn reset(engine: &mut Engine, arena: &[u8]) -> u32 {
    unsafe { terrain_reset(engine, arena.as_ptr(), arena.len()) }
}

pub fn step(engine: &mut Engine, arena: &[u8]) -> Step {
    unsafe { terrain_step(engine, arena.as_ptr(), arena.len()) }
}

pub fn deliver(engine: &mut Engine, arena: &mut [u8], failure: u32, bytes: &[u8]) -> Step {
    let (to, len) = (arena.as_mut_ptr(), arena.len());
    unsafe { terrain_deliver(engine, to, len, failure, bytes.as_ptr(), bytes.len()) }
}

pub fn ahead(engine: &Engine, arena: &[u8]) -> Ahead {
    unsafe { terrain_ahead(engine, arena.as_ptr(), arena.len()) }
}

pub fn header(engine: &Engine, arena: &[u8]) -> Header {
    unsafe { terrain_header(engine, arena.as_ptr(), arena.len()) }
}

pub fn heading(engine: &Engine, arena: &[u8]) -> Heading {
    unsafe { terrain_heading(engine, arena.as_ptr(), arena.len()) }
}

pub fn loads(engine: &Engine, arena: &[u8]) -> Count {
    unsafe { terrain_loads(engine, arena.as_ptr(), arena.len()) }
}

pub fn steps(engine: &Engine, arena: &[u8]) -> Count {
    unsafe { terrain_steps(engine, arena.as_ptr(), arena.len()) }
}
