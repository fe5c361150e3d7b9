//! The functions on numbers against rustc's `as` and the standard library.
//!
//! Two answers are the same when their bits are, but for what Rust leaves open: the bits of a
//! not-a-number (each is written as the quiet positive one, also before `total_cmp` orders it),
//! and the sign of a zero from `min`, `max` and `clamp` where zeros of both signs were given.
use crate::{Scale, angles::lon_scale_of_rust, ffi::*, random::Random, tally::Tally};
use std::{collections::BTreeSet, hint::black_box};

type Words = fn([u32; 3]) -> u32;

/// A function of up to three words: floats as their bits, what has 64 of them as two words, an
/// order as 0 less, 1 equal, 2 greater.
pub struct Function {
    /// Its number in the list that `compare list` writes, to 13; the others aren't in it.
    pub kind: u32,
    pub name: &'static str,
    pub port: Words,
    pub rust: Words,
}

const fn of(kind: u32, name: &'static str, port: Words, rust: Words) -> Function {
    Function { kind, name, port, rust }
}

#[rustfmt::skip]
pub const FUNCTIONS: [Function; 19] = [
    of(1, "f32_of_i32", |[a, ..]| bits(terrain_f32_of_i32(a as i32)), |[a, ..]| bits(a as i32 as f32)),
    of(2, "f32_of_u32", |[a, ..]| bits(terrain_f32_of_u32(a)), |[a, ..]| bits(a as f32)),
    of(3, "i32_of_f32", |[a, ..]| terrain_i32_of_f32(f(a)) as u32, |[a, ..]| f(a) as i32 as u32),
    of(4, "u32_of_f32", |[a, ..]| terrain_u32_of_f32(f(a)), |[a, ..]| f(a) as u32),
    of(5, "u8_of_f32", |[a, ..]| terrain_u8_of_f32(f(a)), |[a, ..]| f(a) as u8 as u32),
    of(6, "i16_of_f32", |[a, ..]| terrain_i16_of_f32(f(a)) as u32, |[a, ..]| f(a) as i16 as u32),
    of(7, "sqrt", |[a, ..]| bits(terrain_sqrt(f(a))), |[a, ..]| bits(f(a).sqrt())),
    of(8, "lon_scale_um", |[a, ..]| terrain_lon_scale_um(a as i32), |[a, ..]| lon_scale_of_rust(a as i32)),
    of(9, "min", |[a, b, _]| bits(terrain_min(f(a), f(b))), |[a, b, _]| bits(f(a).min(f(b)))),
    of(10, "max", |[a, b, _]| bits(terrain_max(f(a), f(b))), |[a, b, _]| bits(f(a).max(f(b)))),
    of(11, "fabs", |[a, ..]| bits(terrain_fabs(f(a))), |[a, ..]| bits(f(a).abs())),
    of(12, "total_cmp", |[a, b, _]| terrain_total_cmp(f(a), f(b)).wrapping_add(1) as u32,
        |[a, b, _]| (f(bits(f(a))).total_cmp(&f(bits(f(b)))) as i32 + 1) as u32),
    of(13, "i16_of_i32", |[a, ..]| terrain_i16_of_i32(a as i32) as u32, |[a, ..]| a as i16 as u32),
    of(15, "is_finite", |[a, ..]| terrain_is_finite(f(a)), |[a, ..]| f(a).is_finite().into()),
    of(16, "sqrt of libm", |[a, ..]| bits(terrain_sqrt(f(a))), |[a, ..]| bits(libm::sqrtf(f(a)))),
    of(17, "f32_of_usize", |[a, b, _]| bits(terrain_f32_of_usize(wide(a, b) as usize)),
        |[a, b, _]| bits(wide(a, b) as usize as f32)),
    of(18, "f32_of_f64", |[a, b, _]| bits(terrain_f32_of_f64(f64::from_bits(wide(a, b)))),
        |[a, b, _]| bits(f64::from_bits(wide(a, b)) as f32)),
    of(19, "clamp", |[x, lo, hi]| bits(terrain_clamp(f(x), f(lo), f(hi))),
        |[x, lo, hi]| bits(f(x).clamp(f(lo), f(hi)))),
    of(20, "u32_of_i32", |[a, ..]| terrain_u32_of_i32(a as i32), |[a, ..]| a as i32 as u32),
];

fn f(bits: u32) -> f32 {
    f32::from_bits(bits)
}

fn wide(low: u32, high: u32) -> u64 {
    u64::from(high) << 32 | u64::from(low)
}

/// Without the black box LLVM drops the choice after a square root, which has not-a-number of its
/// own for the same arguments, and other bits come through.
fn bits(x: f32) -> u32 {
    let x = black_box(x);
    if x.is_nan() { 0x7fc00000 } else { x.to_bits() }
}

fn both_zeros(words: &[u32]) -> bool {
    words.contains(&0) && words.contains(&(1 << 31))
}

impl Function {
    pub fn words(&self) -> usize {
        match self.kind {
            19 => 3,
            9 | 10 | 12 | 17 | 18 => 2,
            _ => 1,
        }
    }

    /// Whether Rust leaves the sign of a zero open.
    pub fn open(&self, given: [u32; 3]) -> bool {
        matches!(self.kind, 9 | 10 | 19) && both_zeros(&given[..self.words()])
    }

    /// All pairs of edges, then random words; for one word the edges, then all words or random ones.
    fn compare(&self, scale: &Scale, edges: &[u32]) -> Tally {
        let (words, width) = (self.words(), edges.len() as u64);
        let every = scale.every && words == 1;
        let edged = if words == 1 { width } else { width * width };
        let random = if every { 1 << 32 } else { scale.random };
        Tally::over(self.name, scale, edged + random, |tally, random, n| {
            let given = match n.checked_sub(edged) {
                None => [edges[(n % width) as usize], edges[(n / width) as usize], 0],
                Some(word) if every => [word as u32, 0, 0],
                Some(_) => [0, 1, 2].map(|k| if k < words { sample(random, edges) } else { 0 }),
            };
            // Rust's clamp panics otherwise.
            if words < 3 || f(given[1]) <= f(given[2]) {
                let (port, rust) = ((self.port)(given), (self.rust)(given));
                let same = port == rust || (self.open(given) && both_zeros(&[port, rust]));
                tally.count(same, &given[..words], port, rust);
            }
        })
    }
}

/// Whole numbers and single floats at which some function of this file turns, and those beside.
pub fn turns(reach: i32) -> BTreeSet<u32> {
    let small = [0.5, 1.0, 1.5, 2.5, 255.0, 256.0, 32_767.0, 32_768.0, 32_769.0, 16_777_216.0];
    let large = [2_147_483_648.0, 4_294_967_296.0, f32::MIN_POSITIVE, f32::INFINITY, f32::NAN];
    let floats = small.into_iter().chain(large).flat_map(|x| [x, -x]).map(f32::to_bits);
    let wholes = (0..32).map(|power| 1 << power).chain([0x1000003, 0x7fffffc0, 0xffffff80]);
    let words = wholes.flat_map(|n: u32| [n, n.wrapping_neg()]).chain(floats);
    words.flat_map(|word| (-reach..=reach).map(move |by| word.wrapping_add_signed(by))).collect()
}

/// The turns, the ends and the middle of each binade, and the high words of doubles at half the
/// least single, the least, the least normal, the greatest, infinity.
fn edges() -> Vec<u32> {
    let fractions = [0, 1, 0x3fffff, 0x400000, 0x400001, 0x7fffff];
    let binades = (0..512).flat_map(|binade| fractions.map(|fraction| binade << 23 | fraction));
    let doubles = [0x36900000, 0x36a00000, 0x380fffff, 0x38100000, 0x47efffff, 0x7ff00000];
    let edges: BTreeSet<u32> = turns(3).into_iter().chain(binades).chain(doubles).collect();
    edges.into_iter().collect()
}

pub fn sample(random: &mut Random, edges: &[u32]) -> u32 {
    match random.below(4) {
        0 => random.whole(),
        1 => edges[random.below(edges.len() as u64) as usize] ^ (random.below(8) as u32),
        _ => random.bits(),
    }
}

/// The longitude scale has latitudes of its own, in angles.rs.
pub fn compare(scale: &Scale) -> Vec<Tally> {
    compare_some(scale, |f| f.kind != 8)
}

pub fn compare_one(scale: &Scale, name: &str) -> Vec<Tally> {
    compare_some(scale, |f| f.name == name)
}

fn compare_some(scale: &Scale, wanted: impl Fn(&Function) -> bool) -> Vec<Tally> {
    let (edges, some) = (edges(), FUNCTIONS.iter().filter(|f| wanted(f)));
    some.map(|f| f.compare(scale, &edges)).collect()
}
