//! Bearing and longitude scale against the original, which calls libm, and against the build of
//! it that calls the port.
use crate::{Scale, expected::caught, ffi, random::Random, tally::Tally};
use oracle::geo::{self, Point};
use std::hint::black_box;

/// Degrees that a bearing may lie from the original's.
const ALLOWED: f64 = 0.05;

/// Stands in the degrees of a refused answer.
const NO_DEGREES: u32 = 0;

/// As engine.rs has it, where it is private.
pub fn lon_scale_of_rust(lat: i32) -> u32 {
    (geo::LAT_UM * libm::cosf((lat as f32 * 1e-6).to_radians())) as u32
}

/// The port's number and its degrees.
pub fn bearing_of_port(east: f32, north: f32) -> (u32, f32) {
    let answer = ffi::terrain_bearing(east, north);
    (answer.number, answer.degrees)
}

/// Degrees between two bearings on the circle.
fn apart(a: impl Into<f64>, b: impl Into<f64>) -> f64 {
    let difference = (a.into() - b.into()).abs() % 360.0;
    difference.min(360.0 - difference)
}

/// Whether a bearing lies in every closed eighth of the circle that holds its vector, 0 and 360
/// being one direction. All is exact: signs, an order of floats, and multiples of 45.
fn in_eighths(east: f32, north: f32, degrees: f32) -> bool {
    let within = |k: usize| (45.0 * k as f32..=45.0 * (k + 1) as f32).contains(&degrees);
    let round = |k: usize| (k == 0 && degrees == 360.0) || (k == 7 && degrees == 0.0);
    // Each eighth turned onto the first quarter, where it holds what is steep or what is flat.
    let holds = |k: usize| {
        let east = if k < 4 { east } else { -east };
        let north = if (2..6).contains(&k) { -north } else { north };
        let steep = matches!(k, 0 | 3 | 4 | 7);
        east >= 0.0 && north >= 0.0 && if steep { east <= north } else { north <= east }
    };
    (0..8).all(|k| !holds(k) || within(k) || round(k))
}

/// Near the original's and in the right eighths; the second build answers the same.
fn count_bearing(tally: &mut Tally, (east, north): (f32, f32)) {
    let (code, degrees) = bearing_of_port(east, north);
    let rust = geo::bearing(east, north);
    let exact = f64::from(east).atan2(north.into()).to_degrees();
    let most = [apart(degrees, rust), apart(degrees, exact)];
    tally.far(most);
    let placed = if east == 0.0 && north == 0.0 {
        degrees.to_bits() == rust.to_bits()
    } else {
        most.iter().all(|&apart| apart <= ALLOWED) && in_eighths(east, north, degrees)
    };
    let second = oracle_angles::geo::bearing(east, north);
    let good = code == 0 && placed && second.to_bits() == degrees.to_bits();
    tally.count(good, (east, north), (code, degrees, second), (rust, exact));
}

/// From an earlier fix, a metre to eight kilometres away, to a new one.
fn vector_of_fixes(random: &mut Random) -> (f32, f32) {
    let here = Point { lat: random.within(89_900_000), lon: random.within(180_000_000) };
    let (lon_um, reach_um) = (lon_scale_of_rust(here.lat), 1_000_000 << random.below(14));
    let lat = here.lat + random.within((reach_um / geo::LAT_UM as u64) as i32);
    let lon = here.lon + random.within((reach_um / u64::from(lon_um)) as i32);
    here.metres_from(Point { lat, lon }, lon_um)
}

/// Every finite bit pattern as likely as any other.
pub fn figure(random: &mut Random) -> f32 {
    f32::from_bits(random.below(0x7f800000) as u32 | random.bits() & 1 << 31)
}

/// Diagonals and axes of any size, and vectors a few units of the last place beside them.
fn vector_near_edge(random: &mut Random) -> (f32, f32) {
    let east = figure(random);
    let beside = f32::from_bits(east.to_bits() ^ random.below(4) as u32);
    let axis = f32::from_bits(random.below(2) as u32);
    let edge = if random.below(4) == 0 { axis } else { beside }.copysign(figure(random));
    if random.below(2) == 0 { (east, edge) } else { (edge, east) }
}

/// All pairs of the ends of binades, so both zeros, subnormal and huge figures, axes and
/// diagonals; then random vectors near the edges of eighths.
fn extremes(scale: &Scale) -> Tally {
    let ends = |binade: u32| [0, 1, 0x7fffff].map(|end| f32::from_bits(binade << 23 | end));
    let figures: Vec<f32> = (0..255).flat_map(ends).flat_map(|x| [x, -x]).collect();
    let width = figures.len() as u64;
    let total = width * width + scale.random / 2;
    Tally::over("bearing, extremes", scale, total, |tally, random, n| {
        let east = figures.get((n / width) as usize);
        let pair = |&east: &f32| (east, figures[(n % width) as usize]);
        count_bearing(tally, east.map_or_else(|| vector_near_edge(random), pair));
    })
}

/// A figure that is not finite is answered by 8, and nothing is written; the second build answers
/// as the original does.
fn refused(scale: &Scale) -> Tally {
    let others = [0.0, -0.0, 1.0, -1.0, f32::MAX, f32::INFINITY, f32::NEG_INFINITY, f32::NAN];
    Tally::over("bearing, not finite", scale, scale.random / 4, |tally, random, n| {
        let fraction = [0, 1, 0x7fffff, random.bits() >> 9][(n / 4 % 4) as usize];
        let mark = f32::from_bits((n as u32 & 1) << 31 | 0x7f800000 | fraction);
        let other = others.get((n / 16) as usize).copied().unwrap_or(figure(random));
        let (east, north) = if n & 2 == 0 { (mark, other) } else { (other, mark) };
        let (code, out) = bearing_of_port(east, north);
        let (rust, second) = (geo::bearing(east, north), oracle_angles::geo::bearing(east, north));
        let kept = rust == second || (rust.is_nan() && second.is_nan());
        let good = code == 8 && out.to_bits() == NO_DEGREES && kept;
        tally.count(good, (east, north), (code, out.to_bits(), second), (8, NO_DEGREES, rust));
    })
}

/// Latitudes north and south from `low` to `high`: all of them, or both ends and random ones.
fn lon_scale(name: &str, scale: &Scale, low: i64, high: i64) -> Tally {
    let all = 2 * (high - low + 1) as u64;
    let every = scale.every && high <= 360_000_000;
    Tally::over(name, scale, if every { all } else { scale.random }, |tally, random, n| {
        let place = match n {
            1_000..2_000 if !every => all + 999 - n,
            2_000.. if !every => random.below(all),
            _ => n,
        };
        let size = low + place as i64 / 2;
        let lat = if place % 2 == 0 { -size as i32 } else { size as i32 };
        let (port, rust) = (ffi::terrain_lon_scale_um(lat), lon_scale_of_rust(lat));
        tally.count(port == rust, format_args!("{lat}"), port, rust);
    })
}

/// Both builds of the original panic on overflow, also in what is compiled with this crate.
fn overflow_checks() -> Tally {
    use oracle_angles::geo::Point as Second;
    let mut tally = Tally::new("overflow checks");
    let (lat, lon) = black_box((i32::MIN, 0));
    let first = caught(|| Point::default().metres_from(Point { lat, lon }, 1));
    let second = caught(|| Second::default().metres_from(Second { lat, lon }, 1));
    tally.count(first.is_err() && second.is_err(), lat, (first.ok(), second.ok()), "two panics");
    tally
}

pub fn compare(scale: &Scale) -> Vec<Tally> {
    let sampled = |name, vector: fn(&mut Random) -> (f32, f32)| {
        Tally::over(name, scale, scale.random, |t, random, _| count_bearing(t, vector(random)))
    };
    // Past a whole circle points are refused, so no answer of the port rests on it.
    let mut beyond = lon_scale("lon_scale_um beyond", scale, 360_000_001, 1 << 31);
    beyond.shown_only = true;
    vec![
        lon_scale("lon_scale_um to ±90", scale, 0, 90_000_000),
        lon_scale("lon_scale_um to ±360", scale, 90_000_001, 360_000_000),
        beyond,
        sampled("bearing, fixes", vector_of_fixes),
        sampled("bearing, all finite", |random| (figure(random), figure(random))),
        extremes(scale),
        refused(scale),
        overflow_checks(),
    ]
}
