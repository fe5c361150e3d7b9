//! The original whose angles are the port's beside the unaltered one, from the same starts with all
//! tiles loaded: what the angles alone change.
use super::networks::network;
use super::start::{self, Summed, Words};
use crate::matching::script::figure;
use crate::random::Random;
use crate::{Scale, tally::Tally};
use oracle::pack;

const ARENA: usize = 96 * 8_192;

/// How a prediction ended, its fields and its heights.
#[derive(PartialEq)]
struct Road {
    ending: u32,
    fields: Vec<u32>,
    heights: Vec<i16>,
}

macro_rules! road {
    ($of:ident, $cache:expr, $header:expr, $start:expr, $horizon:expr) => {{
        let (mut ahead, mut behind) = ([7; 501], [7; 11]);
        let answer =
            $of::predict::predict($cache, $header, $start, $horizon, &mut ahead, &mut behind);
        let (ending, fields) = match answer {
            Err($of::predict::Need::Tile(key)) => (7, vec![key.row.into(), key.col.into()]),
            Err($of::predict::Need::Match) => (6, vec![]),
            Ok(p) => {
                let figures = [figure(p.behind_m), figure(p.end_m), p.confidence.into()];
                (p.end as u32, [&[p.len as u32, p.behind as u32], &figures[..]].concat())
            }
        };
        Road { ending, fields, heights: [&ahead[..], &behind].concat() }
    }};
}

macro_rules! matched {
    ($of:ident, $words:expr) => {{
        let w: &Words = $words;
        let key = $of::pack::TileKey { row: (w[0] >> 16) as u16, col: w[0] as u16 };
        $of::matcher::Matched {
            tile: $of::tile::TileId { key, crc: w[1], edges: w[2] as u16 },
            edge: w[3] as u16,
            segment: w[4] as u16,
            fraction: f32::from_bits(w[5]),
            forward: [None, Some(false), Some(true)][w[6] as usize],
            offset_m: 0.0,
            z_dm: w[8] as i32,
            class: 0,
            flags: 0,
            confidence: w[11] as u8,
            ridden_m: f32::from_bits(w[12]),
        }
    }};
}

/// What differs between two roads.
fn kind(rust: &Road, second: &Road) -> &'static str {
    match (&rust.fields[..], &second.fields[..]) {
        _ if rust.ending != second.ending => "another end",
        (a, b) if a.len() < 5 || a[..4] != b[..4] => "another length",
        (a, b) if rust.heights == second.heights && a[4] != b[4] => "confidence alone",
        _ => "other heights",
    }
}

fn roads(tally: &mut Tally, random: &mut Random) {
    let network = network(random);
    let (mut one, mut two) = (vec![0; ARENA], vec![0; ARENA]);
    let mut one = oracle::cache::Cache::new(&mut one);
    let mut two = oracle_angles::cache::Cache::new(&mut two);
    let sector = network.pack.bytes[..512].try_into().expect("512 bytes");
    let h = pack::Header::parse(sector).expect("a good header");
    let g = oracle_angles::pack::Header::parse(sector).expect("a good header");
    for (row, col) in (0..h.rows).flat_map(|row| (0..h.cols).map(move |col| (row, col))) {
        let mut bytes = &network.pack.bytes[..];
        let key = pack::TileKey { row, col };
        while let Ok(false) = one.load(&mut bytes, &h, key) {}
        let key = oracle_angles::pack::TileKey { row, col };
        while let Ok(false) = two.load(&mut bytes, &g, key) {}
    }
    let tiles = network.plains.iter().filter(|plain| !plain.edges.is_empty());
    for tile in tiles.map(Summed::new) {
        for _ in 0..8 {
            let (words, horizon) = (tile.any(random), start::horizon(random));
            let from = matched!(oracle, &words);
            let rust = road!(oracle, &one, &h, &from, horizon);
            let from = matched!(oracle_angles, &words);
            let changed = road!(oracle_angles, &two, &g, &from, horizon);
            tally.count(rust == changed, (words, horizon), &changed.fields, &rust.fields);
            if rust != changed {
                tally.end((kind(&rust, &changed), 0));
            }
        }
    }
}

pub fn compare(scale: &Scale) -> Tally {
    let mut tally =
        Tally::over("road, angles alone", scale, scale.roads / 2, |tally, random, _| {
            roads(tally, random);
        });
    tally.shown_only = true;
    tally
}
