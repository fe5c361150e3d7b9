//! CRC-32 against the original and against the polynomial of ITU-T V.42, one bit at a time.
use crate::{Scale, ffi, random::Random, tally::Tally};

/// The powers of x below 32 in V.42's generator.
const POWERS: [u32; 14] = [26, 23, 22, 16, 12, 11, 10, 8, 7, 5, 4, 2, 1, 0];

/// The remainder of long division, highest power first. Each byte's low bit is sent first and so
/// has the highest power, which also turns the remainder round in the end.
fn by_bits(bytes: impl IntoIterator<Item = u8>) -> u32 {
    let generator = POWERS.iter().fold(0, |sum, power| sum | 1u32 << power);
    let mut remainder = u32::MAX;
    for byte in bytes {
        for bit in 0..8 {
            let out = (remainder >> 31) ^ u32::from(byte >> bit & 1);
            remainder = (remainder << 1) ^ (generator & 0u32.wrapping_sub(out));
        }
    }
    (!remainder).reverse_bits()
}

/// With those of the four bytes at `at` that there are read as zero.
fn by_bits_skipping(bytes: &[u8], at: usize) -> u32 {
    let zeroed = |(i, &byte): (usize, &u8)| if i >= at && i - at < 4 { 0 } else { byte };
    by_bits(bytes.iter().enumerate().map(zeroed))
}

pub fn compare(scale: &Scale) -> Vec<Tally> {
    assert_eq!(by_bits(*b"123456789"), 0xcbf43926, "the check value that catalogues give");
    // Every length to the scale's, then large random ones.
    let total = scale.crc_len + 1 + scale.crc_len / 8;
    let length = |random: &mut Random, n| match n <= scale.crc_len {
        true => n as usize,
        false => random.below(1 << 18) as usize,
    };
    let whole = Tally::over("crc32", scale, total, |tally, random, n| {
        let len = length(random, n);
        for bytes in [vec![0; len], vec![0xff; len], random.bytes(len)] {
            let (port, rust) = (ffi::crc32(&bytes), oracle::tile::crc32(&bytes));
            let exact = by_bits(bytes);
            tally.count(port == rust && port == exact, len, port, (rust, exact));
        }
    });
    let skipping = Tally::over("crc32_skipping", scale, total, |tally, random, n| {
        let len = length(random, n);
        let bytes = random.bytes(len);
        // Every place to 512 bytes, then the end, the first and some place.
        let first = if len <= 512 { 0 } else { len - 5 };
        let far = [usize::MAX - 4, usize::MAX - 3, usize::MAX - 2, usize::MAX];
        let some = [0, random.below(len as u64 + 1) as usize];
        for at in (first..len + 5).chain(far).chain(some) {
            let (port, exact) = (ffi::crc32_skipping(&bytes, at), by_bits_skipping(&bytes, at));
            tally.count(port == exact, (len, at), port, exact);
        }
    });
    vec![whole, skipping]
}
