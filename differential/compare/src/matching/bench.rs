//! Nanoseconds a match, the port beside the unaltered Rust, on tiles of three kinds: the call alone,
//! the port's through C, each from a copy of one matcher, while the cache's clock goes on. The port
//! checks the tile again with each lookup: the time of `Tile::parse` on the same tile is shown beside
//! it, and the ratio with that taken off.
use super::Case;
use super::roads::{Fate, Grid, Network, Road};
use super::script::*;
use crate::cache::script::{DONE, ends};
use crate::count::{self, Side};
use crate::random::Random;
use crate::{ffi_format, ffi_terrain as port, replay, tally::Tally};
use oracle::{cache::Cache, geo::Point, matcher::Matcher, pack::Header, pack::TileKey};
use oracle_cache::cache::PAGE_BYTES;
use std::{hint::black_box, time::Instant};

const PASSES: usize = 20;
const TIMES: u32 = 400;
const SIZE: u32 = 20_000;
const SOUTH: i32 = 47_000_000;
const WEST: i32 = 8_000_000;
const HEADING: f32 = 80.0;
/// Beside a road that every tile has.
const FIX: [i32; 2] = [SOUTH + 10_030, WEST + 10_200];

fn best(mut run: impl FnMut()) -> f64 {
    let mut pass = |_| {
        let start = Instant::now();
        run();
        start.elapsed().as_nanos() as f64
    };
    (0..PASSES).map(&mut pass).fold(f64::INFINITY, f64::min) / f64::from(TIMES)
}

/// Curved roads of so many vertices anywhere in one tile, and one through its middle.
fn network(roads: u64, vertices: u64) -> Network {
    let random = &mut Random(5);
    let grid = Grid { size: SIZE, rows: 1, cols: 1, south: SOUTH, west: WEST, lon_um: 75_834 };
    let mut road = |_| {
        let mut at = [0; 2].map(|_| 2_000 + random.below(16_000) as i64);
        let mut places = vec![(at[0], at[1], 3_000)];
        for _ in 0..=vertices {
            at = at.map(|n| (n + i64::from(random.within(200)) + 50).clamp(0, SIZE.into()));
            places.push((at[0], at[1], 3_000 + random.below(50) as u16));
        }
        Road { places, class: 4, flags: 0, group: 1 }
    };
    let mut roads: Vec<Road> = (0..roads).map(&mut road).collect();
    let places = vec![(9_500, 10_000, 3_000), (10_500, 10_020, 3_010)];
    roads.push(Road { places, class: 3, flags: 0, group: 2 });
    Network::new(grid, roads, |_| Fate::There)
}

/// The case's last record, from the state that the others leave.
fn of_port(name: &str, case: &Case) -> f64 {
    let mut arena = case.arena.clone();
    let (last, others) = case.script.split_last().expect("the match that is timed");
    let mut state = replay::left_by_matches(others, &case.pack, &mut arena);
    let (header, before) = (state.session.header, state.matcher.is);
    let fix = port::Point { lat: last[1] as i32, lon: last[2] as i32 };
    let degrees = f32::from_bits(last[4]);
    let words = &mut state.session.words.is;
    let found =
        port::matcher_update(&mut before.clone(), words, &arena, header, fix, Some(degrees));
    assert!(matches!(found, port::Outcome::Found(_)), "a match");
    let run = || {
        for _ in 0..TIMES {
            let (mut matcher, fix) = (black_box(before), black_box(fix));
            let heading = port::Given { known: 1, degrees };
            black_box(port::update_told(&mut matcher, words, &arena, header, fix, heading));
        }
    };
    if count::is_on() {
        count::add(name, Side::Port, TIMES, run);
        return 0.0;
    }
    best(run)
}

/// The tile loaded, a match beside the road to go on from, and the one that is timed.
fn case(network: &Network) -> Case {
    Case::new(&network.pack, vec![0; 8 * PAGE_BYTES], |writer| {
        assert_eq!(writer.settle(0), ends(DONE));
        for west in [100, 0] {
            assert_eq!(writer.update(FIX[0], FIX[1] - west, Some(HEADING))[0], FOUND);
        }
    })
}

fn of_rust(name: &str, network: &Network) -> f64 {
    let mut arena = vec![0; 8 * PAGE_BYTES];
    let mut cache = Cache::new(&mut arena);
    let sector = network.pack.bytes[..512].try_into().expect("512 bytes");
    let header = Header::parse(sector).expect("a good header");
    let (key, mut pack) = (TileKey { row: 0, col: 0 }, &network.pack.bytes[..]);
    while let Ok(false) = cache.load(&mut pack, &header, key) {}
    let mut before = Matcher::default();
    let fix = |lon| Point { lat: FIX[0], lon };
    before
        .update(&cache, &header, fix(FIX[1] - 100), Some(HEADING))
        .expect("a tile")
        .expect("a match");
    assert!(matches!(
        before.clone().update(&cache, &header, fix(FIX[1]), Some(HEADING)),
        Ok(Some(_))
    ));
    let run = || {
        for _ in 0..TIMES {
            let mut matcher = black_box(before);
            let _ =
                black_box(matcher.update(&cache, &header, black_box(fix(FIX[1])), Some(HEADING)));
        }
    };
    if count::is_on() {
        count::add(name, Side::Rust, TIMES, run);
        return 0.0;
    }
    best(run)
}

fn beside(name: &str, roads: u64, vertices: u64) -> Tally {
    let network = network(roads, vertices);
    let case = case(&network);
    let mut tally = Tally::new(name);
    case.count(&mut tally, name);
    let port = of_port(name, &case);
    let rust = of_rust(name, &network);
    if count::is_on() {
        return tally;
    }
    let tile = network.plains[0].bytes();
    let check = best(|| {
        for _ in 0..TIMES {
            black_box(ffi_format::tile_parse(black_box(&tile), 0, 0, SIZE).is_ok());
        }
    });
    let rest = (port - check) / rust;
    println!(
        "{name:<24} port {port:>10.2} ns  Rust {rust:>10.2} ns  ratio {:.2}; {} bytes, {} edges; late check {check:.2} ns, ratio without it {rest:.2}",
        port / rust,
        tile.len(),
        network.plains[0].edges.len()
    );
    tally
}

pub fn run() -> Vec<Tally> {
    vec![
        beside("match, sparse tile", 4, 8),
        beside("match, rural tile", 60, 14),
        beside("match, dense tile", 700, 6),
    ]
}
