//! The original whose angles are the port's beside the unaltered one, on the same rides with all
//! tiles loaded: what the angles alone change.
use super::ride::{Fix, Ride};
use super::roads::{Network, network};
use super::script::figure;
use crate::packs::Plain;
use crate::random::Random;
use crate::{Scale, tally::Tally};
use oracle::{cache as first, geo, matcher as before, pack};
use oracle_angles::{cache as second, matcher as after};

const ARENA: usize = 96 * 8_192;

/// One answer of both in words: the match, or the key of a tile that is needed.
type Words = (u32, Vec<u32>);

macro_rules! words {
    ($answer:expr) => {
        match $answer {
            Err(key) => (2, vec![u32::from(key.row), u32::from(key.col)]),
            Ok(None) => (0, vec![]),
            Ok(Some(m)) => {
                let direction = m.forward.map_or(0, |forward| 1 + u32::from(forward));
                let id = [m.tile.key.row, m.tile.key.col, m.edge, m.segment].map(u32::from);
                let figures = [m.fraction, m.offset_m, m.ridden_m].map(|x| figure(x + 0.0));
                let rest = [direction, m.z_dm as u32, m.class.into(), m.confidence.into()];
                (1, [&id[..], &figures, &rest].concat())
            }
        }
    };
}

/// Degrees between two bearings on the circle.
pub fn between(a: f64, b: f64) -> f64 {
    let difference = (a - b).abs() % 360.0;
    difference.min(360.0 - difference)
}

/// Most degrees of the port's bearings from the Rust's and from exact ones, on a tile's segments.
pub fn apart(plain: &Plain) -> [f64; 2] {
    let mut most = [0.0_f64; 2];
    for edge in &plain.edges {
        let (from, count) = (edge.first_vertex as usize, usize::from(edge.vertices));
        let inner = &plain.vertices[from..from + count];
        let ends = [edge.from, edge.to].map(|n| plain.nodes[usize::from(n)]);
        for pair in [&ends[..1], inner, &ends[1..]].concat().windows(2) {
            let east = (f32::from(pair[1].x) - f32::from(pair[0].x)) * plain.lon_um as f32 * 1e-6;
            let north = (f32::from(pair[1].y) - f32::from(pair[0].y)) * geo::LAT_UM * 1e-6;
            let port = f64::from(oracle_angles::geo::bearing(east, north));
            let rust = f64::from(geo::bearing(east, north));
            let exact = f64::from(east).atan2(north.into()).to_degrees();
            most = [most[0].max(between(port, rust)), most[1].max(between(port, exact))];
        }
    }
    most
}

fn ride(tally: &mut Tally, random: &mut Random) {
    let network = network(random);
    if network.roads.is_empty() {
        return;
    }
    network.plains.iter().for_each(|plain| tally.far(apart(plain)));
    let (mut one, mut two) = (vec![0; ARENA], vec![0; ARENA]);
    let (mut one, mut two) = (first::Cache::new(&mut one), second::Cache::new(&mut two));
    let sector = network.pack.bytes[..512].try_into().expect("512 bytes");
    let h = pack::Header::parse(sector).expect("a good header");
    let g = oracle_angles::pack::Header::parse(sector).expect("a good header");
    for (row, col) in (0..h.rows).flat_map(|row| (0..h.cols).map(move |col| (row, col))) {
        let mut bytes = &network.pack.bytes[..];
        let key = pack::TileKey { row, col };
        while let Ok(false) = one.load(&mut bytes, &h, key) {}
        let key = oracle_angles::pack::TileKey { row, col };
        while let Ok(false) = two.load(&mut bytes, &g, key) {}
    }
    let (mut m, mut n) = (before::Matcher::default(), after::Matcher::default());
    for _ in 0..4 {
        let ride = Ride::new(&network, random);
        for fix in ride.fixes(random) {
            let heading = ride.heading(random, fix.along);
            let (lat, lon) = at(&network, fix);
            let rust: Words = words!(m.update(&one, &h, geo::Point { lat, lon }, heading));
            let point = oracle_angles::geo::Point { lat, lon };
            let second: Words = words!(n.update(&two, &g, point, heading));
            tally.count(rust == second, (lat, lon, heading), &second, &rust);
            if rust != second {
                tally.end((kind(&rust, &second), 0));
                // So that each is a difference of one match.
                (m, n) = (before::Matcher::default(), after::Matcher::default());
            }
        }
    }
}

/// What differs between two answers.
fn kind(rust: &Words, second: &Words) -> &'static str {
    match (&rust.1[..], &second.1[..]) {
        (a, b) if rust.0 != second.0 || a.len() != b.len() => "another ending",
        (a, b) if a.len() < 11 || a[..3] != b[..3] => "another edge",
        (a, b) if a[7] != b[7] => "another direction",
        (a, b) if a[..10] == b[..10] => "confidence alone",
        _ => "another place on the edge",
    }
}

fn at(network: &Network, fix: Fix) -> (i32, i32) {
    let grid = &network.grid;
    let lat = (i64::from(grid.south) + fix.place.1) as i32;
    (lat, (i64::from(grid.west) + fix.place.0) as i32)
}

pub fn compare(scale: &Scale) -> Tally {
    let mut tally =
        Tally::over("matcher, angles alone", scale, scale.matches / 2, |tally, random, _| {
            ride(tally, random);
        });
    tally.shown_only = true;
    tally
}
