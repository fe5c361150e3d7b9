//! Cases of the leaves for the list that is replayed without Rust: kind, two arguments and what is
//! expected, which comes from the original, rustc and libm alone; the library is then held against
//! it.
use crate::numbers::{FUNCTIONS, Function, sample, turns};
use crate::{ffi, random::Random, record, tally::Tally};

const RECORDS: usize = 4_096;
/// The last of them, over the bytes of a pack.
const CRCS: usize = 256;
const GRID_LIMIT: i32 = 360_000_000;

type Record = [u32; 4];

fn functions() -> impl Iterator<Item = &'static Function> + Clone {
    FUNCTIONS.iter().filter(|f| f.kind <= 13)
}

/// Leaves out what Rust leaves open.
fn push(records: &mut Vec<Record>, f: &Function, a: u32, b: u32) {
    let unordered = f.kind == 12 && [a, b].iter().any(|&word| f32::from_bits(word).is_nan());
    if !f.open([a, b, 0]) && !unordered {
        records.push([f.kind, a, b, (f.rust)([a, b, 0])]);
    }
}

fn boundaries(records: &mut Vec<Record>, words: &[u32]) {
    let paired = [0, 1, 0x00800000, 0x3f800000, 0x3f800001, 0x7f7fffff, 0x7f800000, 0x7fc00000];
    let paired: Vec<u32> = paired.into_iter().flat_map(|word| [word, word | 1 << 31]).collect();
    let degrees = [0, 30, 45, 60, 90, 135, 180, 225, 270, 300, 315, 360];
    let beside = |d: i32| [-1, 0, 1].map(|by| (d * 1_000_000 + by).min(GRID_LIMIT));
    let both = |lat: i32| [lat as u32, -lat as u32];
    let latitudes: Vec<u32> = degrees.into_iter().flat_map(beside).flat_map(both).collect();
    for f in functions() {
        let (first, second) = match (f.kind, f.words()) {
            (8, _) => (&latitudes[..], &[0][..]),
            (_, 2) => (&paired[..], &paired[..]),
            _ => (words, &[0][..]),
        };
        for &a in first {
            second.iter().for_each(|&b| push(records, f, a, b));
        }
    }
}

/// Each function in turn, until only the checksums are left to write.
fn randoms(records: &mut Vec<Record>, words: &[u32]) {
    let mut random = Random(0);
    for f in functions().cycle() {
        if records.len() == RECORDS - CRCS {
            return;
        }
        let [a, b] = [0; 2].map(|_| sample(&mut random, words));
        let a = if f.kind == 8 { random.within(GRID_LIMIT) as u32 } else { a };
        push(records, f, a, if f.words() == 2 { b } else { 0 });
    }
}

/// Every length to 64, all of the bytes, and random ranges of them.
fn checksums(records: &mut Vec<Record>, bytes: &[u8]) -> Tally {
    let (mut random, mut tally) = (Random(1), Tally::new("crc32"));
    for n in 0..CRCS {
        let len = match n {
            0..=64 => n,
            65 => bytes.len(),
            _ => random.next() as usize % (1 << random.below(15)),
        };
        let at = random.below((bytes.len() - len + 1) as u64) as usize;
        let range = &bytes[at..at + len];
        let (port, rust) = (ffi::crc32(range), oracle::tile::crc32(range));
        records.push([14, at as u32, len as u32, rust]);
        tally.count(port == rust, (at, len), port, rust);
    }
    tally
}

/// The library's answers to the records of one function.
fn answers(f: &Function, records: &[Record]) -> Tally {
    let mut tally = Tally::new(f.name);
    for &[_, a, b, expected] in records.iter().filter(|record| record[0] == f.kind) {
        let port = (f.port)([a, b, 0]);
        tally.count(port == expected, (a, b), port, expected);
    }
    tally
}

/// Counts and records them; the checksums are over these bytes.
pub fn count(bytes: &[u8]) -> Vec<Tally> {
    let words: Vec<u32> = turns(1).into_iter().collect();
    let mut records = Vec::new();
    boundaries(&mut records, &words);
    randoms(&mut records, &words);
    let crc32 = checksums(&mut records, bytes);
    assert_eq!(records.len(), RECORDS);
    for [kind, given @ ..] in &records {
        let payload = given.iter().flat_map(|word| word.to_le_bytes());
        record::case(*kind, &payload.collect::<Vec<_>>());
    }
    functions().map(|f| answers(f, &records)).chain([crc32]).collect()
}
