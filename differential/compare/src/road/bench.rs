//! Nanoseconds a road, the port beside the unaltered Rust: 10 km of long edges, 10 km of short
//! ones, a town. The port runs a script and then its last record many times from one state; the
//! time of a record of no kind is taken off. The port checks each tile that it lands on once more:
//! the time of `Tile::parse` on those tiles is shown beside it, and the ratio with that taken off.
use super::networks::{highway, plain};
use super::script::{IS_ROAD, ROAD};
use super::start::{self, Summed, Words};
use super::town::Town;
use super::{Case, Writer};
use crate::cache::script::{DONE, ends};
use crate::count::{self, Side};
use crate::matching::roads::{Grid, Network};
use crate::random::Random;
use crate::{ffi_format, replay, tally::Tally};
use oracle::pack::{Header, TileKey};
use oracle::{cache::Cache, matcher::Matched, predict::predict, tile::TileId};
use oracle_cache::cache::PAGE_BYTES;
use std::{hint::black_box, time::Instant};

const PASSES: usize = 10;
const TIMES: u32 = 100;
const PAGES: usize = 96;
const HORIZON: f32 = 10_000.0;

fn best(mut run: impl FnMut()) -> f64 {
    let mut pass = |_| {
        let start = Instant::now();
        run();
        start.elapsed().as_nanos() as f64
    };
    (0..PASSES).map(&mut pass).fold(f64::INFINITY, f64::min) / f64::from(TIMES)
}

fn of_port(case: &Case) -> f64 {
    let (script, arena) = (&case.script, &mut case.arena.clone());
    let mut time = |times| {
        best(|| {
            black_box(replay::repeat_roads(script, &case.pack, arena, times));
        })
    };
    time(TIMES) - time(0)
}

/// The same in instructions: the calls are those of `full` less those of `empty`, each less its
/// setup.
fn count_port(name: &str, full: &Case, empty: &Case) {
    let run = |case: &Case, times| {
        let mut arena = case.arena.clone();
        black_box(replay::repeat_roads(&case.script, &case.pack, &mut arena, times));
    };
    count::add(name, Side::Port, TIMES, || run(full, TIMES));
    count::take_off(name, Side::Port, TIMES, || run(full, 0));
    count::take_off(name, Side::Port, TIMES, || run(empty, TIMES));
    count::add(name, Side::Port, TIMES, || run(empty, 0));
}

/// The script that loads all tiles and sets the start; then what `last` writes.
fn case(network: &Network, from: &Words, last: impl FnOnce(&mut Writer)) -> Case {
    Case::new(&network.pack, vec![0; PAGES * PAGE_BYTES], |writer| {
        for plain in &network.plains {
            let key = Summed::new(plain).key();
            assert_eq!(writer.matching.settle(key), ends(DONE));
        }
        start::set(writer, from);
        last(writer);
    })
}

/// The pages of tiles that a prediction from the start looks up: their ages change.
fn landed(network: &Network, from: &Words) -> Vec<usize> {
    let mut pages = Vec::new();
    case(network, from, |writer| {
        let ages = |writer: &Writer| {
            let used = &writer.matching.oracle.cache.cache.used;
            used.iter().map(|age| age.get()).collect::<Vec<_>>()
        };
        let before = ages(writer);
        assert_eq!(writer.road(HORIZON, 0)[0], IS_ROAD);
        let after = ages(writer);
        pages = (0..PAGES).filter(|&page| before[page] != after[page]).collect();
    });
    pages
}

fn of_rust(name: &str, network: &Network, words: &Words) -> f64 {
    let mut arena = vec![0; PAGES * PAGE_BYTES];
    let mut cache = Cache::new(&mut arena);
    let sector = network.pack.bytes[..512].try_into().expect("512 bytes");
    let header = Header::parse(sector).expect("a good header");
    for plain in &network.plains {
        let mut pack = &network.pack.bytes[..];
        while let Ok(false) = cache.load(&mut pack, &header, plain.key) {}
    }
    let key = TileKey { row: (words[0] >> 16) as u16, col: words[0] as u16 };
    let start = Matched {
        tile: TileId { key, crc: words[1], edges: words[2] as u16 },
        edge: words[3] as u16,
        segment: words[4] as u16,
        fraction: f32::from_bits(words[5]),
        forward: Some(words[6] == 2),
        offset_m: 0.0,
        z_dm: words[8] as i32,
        class: 3,
        flags: 0,
        confidence: words[11] as u8,
        ridden_m: f32::from_bits(words[12]),
    };
    let (mut ahead, mut behind) = ([0; 501], [0; 11]);
    let run = || {
        for _ in 0..TIMES {
            let start = black_box(&start);
            let road = predict(&cache, &header, start, HORIZON, &mut ahead, &mut behind);
            let _ = black_box(road);
            black_box(ahead[1]);
        }
    };
    if count::is_on() {
        count::add(name, Side::Rust, TIMES, run);
        return 0.0;
    }
    best(run)
}

/// The port's checks of the tiles that begin at these pages.
fn checks(case: &Case, network: &Network, pages: &[usize]) -> f64 {
    let tiles: Vec<(&[u8], u32, u32)> = pages
        .iter()
        .map(|page| {
            let head = &case.after[page * PAGE_BYTES..];
            let short = |at: usize| u16::from_le_bytes([head[at], head[at + 1]]);
            let key = TileKey { row: short(4), col: short(6) };
            let plain = network.plains.iter().find(|plain| plain.key == key).expect("its tile");
            (&head[..plain.bytes().len()], key.row.into(), key.col.into())
        })
        .collect();
    let check = |&(tile, row, col): &(&[u8], u32, u32)| {
        ffi_format::tile_parse(black_box(tile), row, col, network.grid.size).is_ok()
    };
    assert!(tiles.iter().all(check));
    best(|| {
        for _ in 0..TIMES {
            tiles.iter().for_each(|tile| {
                black_box(check(tile));
            });
        }
    })
}

fn beside(name: &str, network: &Network, from: &Words) -> Tally {
    let full = case(network, from, |writer| {
        assert_eq!(writer.road(HORIZON, 0)[0], IS_ROAD);
    });
    let empty = case(network, from, |writer| {
        writer.put(ROAD + 1, &[HORIZON.to_bits(), 0]);
    });
    let mut tally = Tally::new(name);
    full.count(&mut tally, name);
    if count::is_on() {
        count_port(name, &full, &empty);
        of_rust(name, network, from);
        return tally;
    }
    let (port, rust) = (of_port(&full) - of_port(&empty), of_rust(name, network, from));
    let pages = landed(network, from);
    let check = checks(&full, network, &pages);
    let rest = (port - check) / rust;
    let last = full.answers[full.answers.len() - 1].head;
    let (len, metres) = (last[6], f32::from_bits(last[10]));
    println!(
        "{name:<24} port {port:>10.0} ns  Rust {rust:>10.0} ns  ratio {:.2}; {len} samples, {metres:.0} m, {:?}; late checks of {} tiles {check:.0} ns, ratio without them {rest:.2}",
        port / rust,
        full.answers[full.answers.len() - 1].told().0,
        pages.len(),
    );
    tally
}

/// The start at the first edge of a network's tile that has the given class.
fn start_of(network: &Network, tile: usize, class: u8) -> Words {
    let plain = &network.plains[tile];
    let edge = plain.edges.iter().position(|edge| edge.class == class).expect("an edge");
    let mut start = Summed::new(plain).at(edge, 0);
    let (from, to) = (plain.edges[edge].from, plain.edges[edge].to);
    let [from, to] = [from, to].map(|n| plain.nodes[usize::from(n)].x);
    start[start::DIRECTION] = if from <= to { 2 } else { 1 };
    start[start::RIDDEN] = 200.0_f32.to_bits();
    start
}

/// Streets of a net with side roads, under a road of one name that crosses it.
fn town() -> Network {
    let (south, west) = (47_000_000, 8_000_000);
    let grid = Grid { size: 20_000, rows: 1, cols: 8, south, west, lon_um: 75_834 };
    let random = &mut Random(9);
    let mut town = Town { grid, random, roads: Vec::new() };
    // 150 blocks of 75 m from west to east along the middle, each joint with streets north and
    // south and roads on between them.
    let (mut at, kind) = ((100, 10_000, 3_000), |class, group| (class, group));
    for n in 0..150_u16 {
        let next = town.grid.beside(at, 75.0, 0.0);
        let add = |town: &mut Town, (class, group), places| {
            town.add(super::town::Kind { class, flags: 0, group }, places);
        };
        add(&mut town, kind(3, 7), vec![at, next]);
        for side in [-1.0, 1.0] {
            let mut from = next;
            for k in 0..4 {
                let to = town.grid.beside(from, 0.0, side * 60.0);
                let east = town.grid.beside(to, 75.0, 0.0);
                add(&mut town, kind(6, 100 + n), vec![from, to]);
                add(&mut town, kind(7, 300 + k), vec![to, east]);
                from = to;
            }
        }
        at = next;
    }
    plain(grid, town.roads)
}

pub fn run() -> Vec<Tally> {
    let (south, west, lon_um) = (47_000_000, 8_000_000, 75_834);
    let grid = |cols| Grid { size: 20_000, rows: 1, cols, south, west, lon_um };
    let long = highway(grid(8), 700.0, 0, &mut Random(1));
    let short = highway(grid(8), 14.0, 0, &mut Random(2));
    let town = town();
    vec![
        beside("road, long edges", &long, &start_of(&long, 0, 3)),
        beside("road, short edges", &short, &start_of(&short, 0, 3)),
        beside("road, town", &town, &start_of(&town, 0, 3)),
    ]
}
