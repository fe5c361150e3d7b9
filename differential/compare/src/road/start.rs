//! Starts of predictions: a match made up field by field, within the rules or outside them.
use super::Writer;
use crate::matching::script::{SET_MATCH, of_match};
use crate::packs::Plain;
use crate::random::{Random, pick};

/// The words of a match, in the order of record 48's fields.
pub type Words = [u32; 13];

/// Places of some fields.
pub const KEY: usize = 0;
pub const CRC: usize = 1;
pub const EDGES: usize = 2;
pub const EDGE: usize = 3;
pub const SEGMENT: usize = 4;
pub const FRACTION: usize = 5;
pub const DIRECTION: usize = 6;
pub const HEIGHT: usize = 8;
pub const CONFIDENCE: usize = 11;
pub const RIDDEN: usize = 12;

/// Metres that were ridden, of every kind.
const METRES: [f32; 17] = [
    -5.0,
    -0.0,
    0.0,
    0.5,
    1.0,
    5.0,
    19.99,
    20.0,
    20.99,
    199.0,
    199.99,
    200.0,
    250.0,
    1e30,
    f32::INFINITY,
    f32::NEG_INFINITY,
    f32::NAN,
];
const FRACTIONS: [f32; 6] = [0.0, -0.0, 1.0, 0.5, 1e-38, 0.999_999_94];
/// Horizons of every kind.
const HORIZONS: [f32; 18] = [
    f32::NAN,
    f32::INFINITY,
    f32::NEG_INFINITY,
    -1.0,
    -0.0,
    0.0,
    1e-40,
    19.99,
    20.0,
    20.01,
    100.0,
    1_000.0,
    9_980.0,
    10_000.0,
    10_000.0,
    10_000.0,
    10_000.0,
    1e30,
];

/// The tile's sum as its bytes have it.
fn sum(plain: &Plain) -> u32 {
    u32::from_le_bytes(plain.bytes()[24..28].try_into().expect("4 bytes"))
}

/// The elevation of an edge's first node in decimetres.
fn height(plain: &Plain, edge: usize) -> i32 {
    let node = plain.nodes[usize::from(plain.edges[edge].from)];
    i32::from(node.z) * 2 - 5_000
}

/// A tile's sum, once for all its starts.
pub struct Summed<'p> {
    plain: &'p Plain,
    crc: u32,
}

impl<'p> Summed<'p> {
    pub fn new(plain: &'p Plain) -> Self {
        Self { plain, crc: sum(plain) }
    }

    pub fn key(&self) -> u32 {
        let [row, col] = self.plain.key();
        row << 16 | col
    }

    /// The start at an edge's segment, half way along it, forward.
    pub fn at(&self, edge: usize, segment: u32) -> Words {
        let edges = self.plain.edges.len() as u32;
        let half = 0.5_f32.to_bits();
        let z = height(self.plain, edge) as u32;
        [self.key(), self.crc, edges, edge as u32, segment, half, 2, 0, z, 3, 0, 100, 0]
    }

    /// Anywhere on the tile, in any direction, with any figures that are within the rules.
    pub fn any(&self, random: &mut Random) -> Words {
        let edge = random.below(self.plain.edges.len() as u64) as usize;
        let last = u64::from(self.plain.edges[edge].vertices);
        let mut start = self.at(edge, random.below(last + 1) as u32);
        let any = random.below(1 << 24) as f32 / (1 << 24) as f32;
        start[FRACTION] = pick(&[any, any, any, pick(&FRACTIONS, random)], random).to_bits();
        start[DIRECTION] = if random.below(30) == 0 { 0 } else { 1 + random.below(2) as u32 };
        let far = pick(&[-1_000_000, 1_000_000, 40_000, -40_000, 0], random);
        let near = start[HEIGHT] as i32 + random.within(30);
        start[HEIGHT] = if random.below(12) == 0 { far as u32 } else { near as u32 };
        let some = random.below(256) as u32;
        start[CONFIDENCE] = pick(&[100, 100, 100, 80, 50, 30, 0, 255, some], random);
        let ridden = random.below(3_000) as f32 / 10.0;
        start[RIDDEN] = pick(&[ridden, ridden, pick(&METRES, random)], random).to_bits();
        start
    }

    /// One field outside the rules, or at their limit.
    pub fn odd(&self, random: &mut Random, start: Words) -> Words {
        let mut odd = start;
        let edges = self.plain.edges.len() as u32;
        let vertices = u32::from(self.plain.edges[start[EDGE] as usize].vertices);
        let limit = 1_000_000;
        let (field, value) = match random.below(9) {
            0 => (EDGE, pick(&[edges, edges + 1, 65_535], random)),
            1 => (SEGMENT, pick(&[vertices, vertices + 1, vertices + 2, 65_535], random)),
            2 | 3 => (FRACTION, pick(&BAD_FRACTIONS, random).to_bits()),
            4 => {
                let z = pick(&[limit + 1, -limit - 1, i32::MAX, i32::MIN, limit, -limit], random);
                (HEIGHT, z as u32)
            }
            5 => (KEY, pick(&[start[KEY] + (20 << 16), start[KEY] + 20, u32::MAX], random)),
            6 => (CRC, start[CRC] ^ 1 << random.below(32)),
            7 => (EDGES, pick(&[edges + 1, edges - 1, 0, 65_535], random)),
            _ => (DIRECTION, 0),
        };
        odd[field] = value;
        odd
    }
}

pub const BAD_FRACTIONS: [f32; 8] =
    [-1e-45, -0.5, 1.000_000_1, 2.0, f32::NAN, f32::INFINITY, f32::NEG_INFINITY, -0.0];

/// The records that make the matcher's current match this one: a field each that differs.
pub fn set(writer: &mut Writer, start: &Words) {
    let current = writer
        .matching
        .oracle
        .matcher
        .current
        .map_or([0; 13], |m| of_match(&m).try_into().expect("13 words"));
    // With none there, the first record makes one, and its other fields are zeros.
    writer.put(SET_MATCH, &[0, start[KEY]]);
    for field in 1..13 {
        if start[field] != current[field] {
            writer.put(SET_MATCH, &[field as u32, start[field]]);
        }
    }
}

/// A horizon, mostly far.
pub fn horizon(random: &mut Random) -> f32 {
    let near = random.below(40_000) as f32 / 10.0;
    pick(&[10_000.0, 10_000.0, near, near, pick(&HORIZONS, random)], random)
}
