//! Nanoseconds a call, the port beside the Rust, on the same inputs in one run. Every argument
//! and answer is held from the optimiser, so neither side is made into vector code.
use crate::angles::{bearing_of_port, lon_scale_of_rust};
use crate::{
    cache, expected as rust, ffi::*, ffi_format as port, packs, random::Random, tally::Tally,
};
use oracle::pack::TileKey;
use oracle::{geo, tile};
use std::{fmt::Debug, hint::black_box, time::Instant};

const PASSES: usize = 50;
const INPUTS: usize = 20_000;

fn pass<T: Copy, R>(inputs: &[T], f: impl Fn(T) -> R) -> f64 {
    let start = Instant::now();
    for &input in inputs {
        black_box(f(black_box(input)));
    }
    start.elapsed().as_nanos() as f64 / inputs.len() as f64
}

/// The best of several passes, port and Rust in turn; then whether their answers are equal.
fn beside<T: Copy + Debug, R: PartialEq + Debug>(
    name: &str,
    inputs: &[T],
    port: impl Fn(T) -> R,
    rust: impl Fn(T) -> R,
) -> Tally {
    let (mut of_port, mut of_rust) = (f64::INFINITY, f64::INFINITY);
    for _ in 0..PASSES {
        of_port = of_port.min(pass(inputs, &port));
        of_rust = of_rust.min(pass(inputs, &rust));
    }
    let ratio = of_port / of_rust;
    println!("{name:<24} port {of_port:>10.2} ns  Rust {of_rust:>10.2} ns  ratio {ratio:.2}");
    let mut tally = Tally::new(name);
    for &input in inputs {
        let (port, rust) = (port(input), rust(input));
        tally.count(port == rust, name, port, rust);
    }
    tally
}

fn some<T>(one: impl Fn(&mut Random) -> T) -> Vec<T> {
    let mut random = Random(0);
    (0..INPUTS).map(|_| one(&mut random)).collect()
}

/// Sectors and tiles that are accepted, so that nothing is left out.
fn format() -> Vec<Tally> {
    let words = some(|r| packs::words(&packs::header(r)));
    let sectors: Vec<_> = words[..64].iter().map(packs::sector).collect();
    let sectors: Vec<_> = sectors.iter().collect();
    let mut tallies =
        vec![beside("header parse", &sectors, port::header_parse, rust::header_parse)];
    for (name, len) in [("tile parse of 20 KB", 20_000), ("tile parse of 48 KB", 49_152)] {
        let (key, random) = (TileKey { row: 0, col: 0 }, &mut Random(0));
        let nodes = packs::nodes(random, 20_000, len / 40);
        let bytes = packs::tile(random, key, 20_000, nodes, len).bytes();
        assert_eq!(bytes.len(), len);
        let rust = |bytes| tile::Tile::parse(bytes, key, 20_000).is_ok();
        let port = |bytes: &[u8]| port::tile_parse(bytes, 0, 0, 20_000).is_ok();
        tallies.push(beside(name, &[&bytes[..]; 4], port, rust));
    }
    let segments = some(|r| [0; 6].map(|_| r.within(8_000_000) as f32 / 1_000.0));
    let port = |[px, py, ax, ay, bx, by]: [f32; 6]| port::project(px, py, ax, ay, bx, by);
    let rust = |[px, py, ax, ay, bx, by]: [f32; 6]| rust::project(px, py, ax, ay, bx, by);
    tallies.push(beside("project", &segments, port, rust));
    tallies
}

pub fn run() -> Vec<Tally> {
    let tile = Random(0).bytes(48 * 1024);
    let roots = some(|r| r.bits() as f32 / 4_096.0);
    let wholes = some(|r| r.bits() as i32);
    let floats = some(|r| r.bits() as i32 as f32 / 65_536.0);
    let vectors = some(|r| (r.within(8_000) as f32, r.within(8_000) as f32));
    let latitudes = some(|r| r.within(90_000_000));
    let port = |(east, north)| bearing_of_port(east, north).1;
    let mut bearing = beside("bearing", &vectors, port, |(east, north)| geo::bearing(east, north));
    // It need only be near; the gate looks at that.
    bearing.shown_only = true;
    let port = |lat| terrain_lon_scale_um(lat);
    let mut tallies = vec![
        beside("crc32 of 48 KiB", &[&tile[..]; 8], crc32, tile::crc32),
        beside("sqrt", &roots, |x| terrain_sqrt(x), f32::sqrt),
        beside("f32_of_i32", &wholes, |n| terrain_f32_of_i32(n), |n| n as f32),
        beside("i32_of_f32", &floats, |x| terrain_i32_of_f32(x), |x| x as i32),
        bearing,
        beside("lon_scale_um", &latitudes, port, lon_scale_of_rust),
    ];
    tallies.extend(format());
    tallies.extend(cache::bench::run());
    tallies.extend(crate::matching::bench::run());
    tallies.extend(crate::road::bench::run());
    tallies
}
