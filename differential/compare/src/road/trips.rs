//! Scripts of predictions over networks: from matches of rides and from made-up starts, with tiles
//! ready, missing and not loaded, over caches of every size.
use super::networks::{highway, network};
use super::start::{self, Summed};
use super::{Case, Writer};
use crate::cache::script::*;
use crate::matching::ride::Ride;
use crate::matching::roads::{Grid, Network};
use crate::matching::script::{NEED, SET_NO_MATCH};
use crate::random::{Random, pick};
use crate::tally::Tally;
use oracle_cache::cache::PAGE_BYTES;

/// A network, and the sums of its tiles.
pub struct Trip<'n> {
    network: &'n Network,
    tiles: Vec<Summed<'n>>,
    /// How needed tiles are loaded: always, mostly, seldom.
    loads: u64,
}

impl<'n> Trip<'n> {
    pub fn new(network: &'n Network, random: &mut Random) -> Self {
        let tiles = network.plains.iter().filter(|plain| !plain.edges.is_empty());
        let tiles = tiles.map(Summed::new).collect();
        Self { network, tiles, loads: pick(&[1, 1, 1, 2, 6], random) }
    }

    pub fn keys(&self) -> Vec<u32> {
        let h = &self.network.pack.header;
        let (rows, cols) = (u32::from(h.rows), u32::from(h.cols));
        (0..rows * cols).map(|n| n / cols << 16 | n % cols).collect()
    }

    /// A prediction; where a tile is needed it may be loaded and the prediction made again.
    fn road(&self, writer: &mut Writer, random: &mut Random) {
        let (horizon, mark) = (start::horizon(random), random.bits());
        let mut ending = writer.road(horizon, mark);
        // With few pages the tiles may put each other out for ever.
        for _ in 0..12 {
            if ending[0] != NEED || random.below(self.loads) > 0 {
                break;
            }
            if writer.matching.settle(ending[1])[0] == FAILED {
                break;
            }
            ending = writer.road(horizon, mark);
        }
    }

    /// Starts anywhere on a tile, one in eight with a field outside the rules.
    fn made_up(&self, writer: &mut Writer, random: &mut Random) {
        let tile = &self.tiles[random.below(self.tiles.len() as u64) as usize];
        let (from, odd) = (tile.any(random), random.below(8) == 0);
        start::set(writer, &if odd { tile.odd(random, from) } else { from });
        (0..1 + random.below(2)).for_each(|_| self.road(writer, random));
        if odd {
            // A matcher would refuse it, or the Rust's stop.
            writer.put(SET_NO_MATCH, &[]);
        }
    }

    /// A few fixes along a road, then predictions from their match.
    fn ride(&self, writer: &mut Writer, random: &mut Random) {
        let ride = Ride::new(self.network, random);
        let fixes = ride.fixes(random);
        for fix in fixes.into_iter().take(1 + random.below(6) as usize) {
            ride.fix(writer.matching, random, fix);
            if random.below(3) == 0 {
                self.road(writer, random);
            }
        }
        self.road(writer, random);
    }

    /// A byte of a ready run is another for some predictions, and then what it was.
    fn late(&self, writer: &mut Writer, random: &mut Random) {
        let c = &writer.matching.oracle.cache.cache;
        let ready: Vec<usize> = (0..c.count).filter(|&page| c.slots[page].ready).collect();
        let Some(&page) = ready.get(random.below(ready.len().max(1) as u64) as usize) else {
            return;
        };
        let at = page * PAGE_BYTES + random.below(c.slots[page].len as u64) as usize;
        let byte = u32::from(c.arena[at]);
        writer.put(SET_BYTE, &[at as u32, byte ^ 1 << random.below(8)]);
        (0..2).for_each(|_| {
            let tile = &self.tiles[random.below(self.tiles.len() as u64) as usize];
            start::set(writer, &tile.any(random));
            writer.road(start::horizon(random), random.bits());
        });
        writer.put(SET_BYTE, &[at as u32, byte]);
        writer.late = false;
    }

    /// Other states of the cache that are accepted.
    fn between(&self, writer: &mut Writer, random: &mut Random) {
        let key = pick(&self.keys(), random);
        match random.below(8) {
            0 => writer.put(SET_MISSING, &[random.below(64) as u32, key]),
            1 => writer.put(SET_MISSING, &[random.below(64) as u32, NO_KEY]),
            2 => writer.put(CLEAR, &[]),
            3 => writer.put(SET_CLOCK, &[u32::MAX - random.below(30) as u32]),
            4 => writer.put(pick(&[63, 65, u32::MAX], random), &[]),
            5 => writer.put(GET, &[key]),
            _ => writer.matching.settle(key),
        };
    }

    fn next(&self, writer: &mut Writer, random: &mut Random) {
        match random.below(16) {
            0..9 => self.made_up(writer, random),
            9..13 => self.ride(writer, random),
            13 => self.late(writer, random),
            _ => self.between(writer, random),
        }
    }
}

/// A script of so many starts on one network.
pub fn case(network: &Network, random: &mut Random, arena: Vec<u8>, starts: u64) -> Case {
    Case::new(&network.pack, arena, |writer| {
        let trip = Trip::new(network, random);
        // Of three scripts two start with all tiles loaded, as far as there are pages.
        if random.below(3) > 0 {
            trip.keys().into_iter().for_each(|key| {
                writer.matching.settle(key);
            });
        }
        (0..starts).for_each(|_| trip.next(writer, random));
    })
}

/// The arena's pages, most of them enough for the tiles of a network.
fn pages(random: &mut Random) -> usize {
    let any = 1 + random.below(40) as usize;
    let many = 41 + random.below(56) as usize;
    let seldom = if random.below(16) == 0 { many } else { 24 };
    pick(&[1, 2, 6, 12, 13, 14, 16, 18, 24, 30, any, any, seldom], random)
}

pub fn compare(tally: &mut Tally, random: &mut Random) {
    let network = network(random);
    if network.plains.is_empty() {
        return;
    }
    for _ in 0..3 {
        let arena = vec![random.next() as u8; pages(random) * PAGE_BYTES + 1];
        case(&network, random, arena, 12).count(tally, "trip");
    }
}

/// A long road: over a hundred small tiles and more pages than it may take, or over a few large
/// ones to the last sample.
pub fn far(tally: &mut Tally, random: &mut Random, n: u64) {
    let (size, cols, step) = match n % 4 {
        0 => (300, 100, 30.0),
        1 => (700, 97, 9.0),
        2 => (20_000, 9, pick(&[4.0, 12.0, 19.0], random)),
        _ => (65_535, 3, pick(&[60.0, 400.0, 2_500.0], random)),
    };
    let (south, west) = (47_000_000, 8_000_000);
    let grid = Grid { size, rows: 1, cols, south, west, lon_um: 75_834 };
    let network = highway(grid, step, pick(&[0, 0, 40], random), random);
    let pages = pick(&[96, 96, 97, 60, 20], random);
    let case = Case::new(&network.pack, vec![3; pages * PAGE_BYTES], |writer| {
        let trip = Trip::new(&network, random);
        let keys = trip.keys();
        keys.into_iter().for_each(|key| {
            writer.matching.settle(key);
        });
        for _ in 0..6 {
            let (first, last) = (&trip.tiles[0], &trip.tiles[trip.tiles.len() - 1]);
            let mut from = pick(&[first, first, last], random).any(random);
            (from[start::CONFIDENCE], from[start::DIRECTION]) = (100, 1 + random.below(2) as u32);
            start::set(writer, &from);
            let horizon = pick(&[10_000.0, 10_000.0, f32::INFINITY, f32::NAN, 9_999.0], random);
            writer.road(horizon, random.bits());
        }
    });
    case.count(tally, "far");
}
