//! The geometry against the original, by bits, but zeros of either sign are equal and so are all
//! not-a-numbers.
use crate::ffi_format::{self as port, Answer};
use crate::random::{Random, pick};
use crate::{Scale, angles, expected as rust, packs::LIMIT, tally::Tally};

type Both<const N: usize> = (&'static str, Answer<N>, Answer<N>);

fn plain<const N: usize>((name, port, rust): Both<N>) -> Both<N> {
    let word = |word| match f32::from_bits(word) {
        x if x.is_nan() => 0x7fc00000,
        0.0 => 0,
        _ => word,
    };
    (name, port.map(|words| words.map(word)), rust.map(|words| words.map(word)))
}

fn figure(random: &mut Random, kind: u64) -> f32 {
    let any = angles::figure(random);
    let ends = [0.0, -0.0, 1e-23, f32::MIN_POSITIVE, 1.3e19, 1.8446743e19, f32::MAX, f32::MIN];
    match kind {
        // Metres on a map, and few values, so that points meet and ends are hit.
        0 | 1 => random.within(8_000_000) as f32 / 1_000.0,
        2 | 3 => random.within(3) as f32,
        // Subnormal or little more, and such that squares and differences pass all bounds.
        4 => f32::from_bits(any.to_bits() & 0x80ffffff),
        5 => f32::from_bits(any.to_bits() & 0x80ffffff | 0x7e000000),
        6 => pick(&ends, random),
        _ => any,
    }
}

/// All of one kind or of several, and now and then one that is not finite.
pub fn figures<const N: usize>(random: &mut Random) -> [f32; N] {
    let kind = random.below(12);
    let mut figures = [kind; N].map(|kind| {
        let kind = if kind < 8 { kind } else { random.below(8) };
        figure(random, kind)
    });
    if random.below(16) == 0 {
        let marks = [0x7f800000, 0xff800000, 0x7fc00000, 0xffc00000, 0x7f800001];
        figures[random.below(N as u64) as usize] = f32::from_bits(pick(&marks, random));
    }
    figures
}

/// Bearings, multiples of 45 degrees and what stands beside them, and past a whole circle.
pub fn heading(random: &mut Random) -> f32 {
    let (some, [any]) = (random.within(360_000_000) as f32 / 1e6, figures(random));
    let corner = random.within(8) as f32 * 45.0;
    let beside = f32::from_bits(corner.to_bits() ^ random.below(4) as u32);
    pick(&[some, some, some, corner, corner, beside, beside.next_down(), any], random)
}

fn place(random: &mut Random) -> i32 {
    let (end, near) = (pick(&[-LIMIT, LIMIT], random), random.within(50_000));
    let far = pick(&[end - 1, end, end + 1, i32::MIN, i32::MAX, random.bits() as i32], random);
    if random.below(12) == 0 { far } else { pick(&[near, random.within(LIMIT)], random) }
}

/// Two points and a scale.
pub fn places(random: &mut Random) -> ([i32; 4], u32) {
    let scales = [0, 1, 111_195, 71_474, u32::MAX, random.bits(), random.bits() >> 15];
    ([0; 4].map(|_| place(random)), pick(&scales, random))
}

pub fn compare(scale: &Scale) -> Vec<Tally> {
    let over = |name, count: fn(&mut Tally, &mut Random)| {
        Tally::over(name, scale, scale.random / 4, |tally, random, _| count(tally, random))
    };
    vec![
        over("metres_from", |tally, random| {
            let (at @ [lat, lon, from_lat, from_lon], lon_um) = places(random);
            let answers = both!(metres_from; lat, lon, from_lat, from_lon, lon_um);
            tally.same((at, lon_um), plain(answers));
        }),
        over("length", |tally, random| {
            let [east, north] = figures(random);
            tally.same([east, north], plain(both!(length; east, north)));
        }),
        over("turn", |tally, random| {
            let (from, to) = (heading(random), heading(random));
            tally.same([from, to], plain(both!(turn; from, to)));
        }),
        over("project", |tally, random| {
            let all @ [px, py, ax, ay, bx, by] = figures(random);
            tally.same(all, plain(both!(project; px, py, ax, ay, bx, by)));
        }),
    ]
}
