//! Sequences of fixes along and beside the roads of a network, over caches in every condition.
use super::roads::{Network, Place, network};
use super::script::*;
use super::{Case, Writer};
use crate::cache::script::*;
use crate::random::{Random, pick};
use crate::tally::Tally;
use oracle_cache::cache::PAGE_BYTES;

/// How a ride goes.
pub struct Ride<'n> {
    pub network: &'n Network,
    /// Metres between fixes, and how far they lie from the road at most.
    step: f64,
    noise: f64,
    /// One fix in so many is out of the ordinary.
    odd: u64,
    /// How needed tiles are loaded: always, mostly, seldom.
    loads: u64,
    /// Whether headings are given: none, mostly, all.
    headings: u64,
}

/// A fix: where it lies on the grid, and the way that it goes in degrees.
#[derive(Clone, Copy)]
pub struct Fix {
    pub place: Place,
    pub along: f32,
}

fn degrees(from: Place, to: Place, lon_um: u32) -> f32 {
    let east = (to.0 - from.0) as f32 * lon_um as f32;
    let north = (to.1 - from.1) as f32 * 111_195.0;
    let degrees = east.atan2(north).to_degrees();
    if degrees < 0.0 { degrees + 360.0 } else { degrees }
}

impl<'n> Ride<'n> {
    pub fn new(network: &'n Network, random: &mut Random) -> Self {
        Self {
            network,
            step: pick(&[1.0, 4.0, 8.0, 15.0, 30.0], random),
            noise: pick(&[0.0, 1.0, 5.0, 15.0, 45.0], random),
            odd: pick(&[3, 10, 40], random),
            loads: pick(&[1, 2, 6], random),
            headings: random.below(4),
        }
    }

    /// Fixes along a road, from one of its places on, forward or back, with noise.
    pub fn fixes(&self, random: &mut Random) -> Vec<Fix> {
        let grid = &self.network.grid;
        let roads = &self.network.roads;
        let mut places = roads[random.below(roads.len() as u64) as usize].places.clone();
        if random.below(2) == 0 {
            places.reverse();
        }
        let skip = random.below(places.len() as u64) as usize;
        let mut out = Vec::new();
        for pair in places[skip.min(places.len() - 2)..].windows(2) {
            let (from, to) = (pair[0], pair[1]);
            let along = degrees(from, to, grid.lon_um);
            let (dx, dy) = ((to.0 - from.0) as f64, (to.1 - from.1) as f64);
            let metres = (dx * f64::from(grid.lon_um) * 1e-6).hypot(dy * 0.111_195);
            let count = (metres / self.step).ceil().clamp(1.0, 12.0);
            for n in 0..count as u32 {
                let t = f64::from(n) / count;
                let noise = self.noise * random.within(1_000) as f64 / 1_000.0;
                let aside = self.noise * random.within(1_000) as f64 / 1_000.0;
                let at = (from.0 + (dx * t) as i64, from.1 + (dy * t) as i64, 0);
                out.push(Fix { place: grid.beside(at, noise, aside), along });
            }
            if out.len() > 30 {
                break;
            }
        }
        out
    }

    /// Out of the ordinary: on a vertex, off the road, off the grid, anywhere, at an edge of what
    /// a point may be.
    fn stray(&self, random: &mut Random, fix: Fix) -> Fix {
        let (grid, roads) = (&self.network.grid, &self.network.roads);
        let places = &roads[random.below(roads.len() as u64) as usize].places;
        let vertex = places[random.below(places.len() as u64) as usize];
        let far = self.network.grid.beside(
            fix.place,
            random.within(200) as f64,
            random.within(200) as f64,
        );
        let (width, height) = (grid.width(), grid.height());
        let any = (random.below(width as u64) as i64, random.below(height as u64) as i64, 0);
        let size = i64::from(grid.size);
        let corner = (any.0 / size * size, any.1 / size * size, 0);
        let out = pick(&[(-1, 5, 0), (5, -1, 0), (width, 5, 0), (5, height, 0)], random);
        let place = pick(&[vertex, vertex, vertex, far, far, any, corner, out], random);
        Fix { place, along: fix.along }
    }

    pub fn heading(&self, random: &mut Random, along: f32) -> Option<f32> {
        let noisy = along + random.within(25_000) as f32 / 1_000.0;
        let noisy = noisy.clamp(-360.0, 360.0);
        let opposite = if noisy > 180.0 { noisy - 180.0 } else { noisy + 180.0 };
        let any = random.within(360_000) as f32 / 1_000.0;
        let fixed = pick(&[-360.0, 360.0, 0.0, -0.0, 90.0, 180.0, -180.0, 45.0], random);
        let given = match random.below(self.odd * 2) {
            0 => fixed,
            1 => any,
            2 | 3 => opposite,
            _ => pick(&[along, noisy, noisy], random),
        };
        match self.headings {
            0 => None,
            1 => Some(given),
            _ => Some(given).filter(|_| random.below(5) > 0),
        }
    }

    /// One fix; where a tile is needed it may be loaded and the fix made again.
    pub fn fix(&self, writer: &mut Writer, random: &mut Random, fix: Fix) {
        let fix = if random.below(self.odd) == 0 { self.stray(random, fix) } else { fix };
        let grid = &self.network.grid;
        let lat = (i64::from(grid.south) + fix.place.1) as i32;
        let lon = (i64::from(grid.west) + fix.place.0) as i32;
        let heading = self.heading(random, fix.along);
        let mut ending = writer.update(lat, lon, heading);
        // With few pages the tiles may put each other out for ever.
        for _ in 0..6 {
            if ending[0] != NEED || random.below(self.loads) > 0 {
                break;
            }
            let done = match random.below(4) {
                0 => writer.put(LOAD_FROM, &[ending[1]]),
                _ => writer.settle(ending[1]),
            };
            if done[0] == FAILED {
                break;
            }
            ending = writer.update(lat, lon, heading);
        }
        if random.below(8) == 0 {
            writer.put(NEARBY, &[lat as u32, lon as u32]);
        }
        // A halt.
        if random.below(self.odd) == 0 {
            (0..random.below(4)).for_each(|_| {
                let heading = self.heading(random, fix.along);
                writer.update(lat, lon, heading);
            });
        }
    }

    /// Other calls, and states of matcher and cache that are accepted.
    fn between(&self, writer: &mut Writer, random: &mut Random) {
        let h = &self.network.pack.header;
        let key = (random.below(h.rows.into()) << 16 | random.below(h.cols.into())) as u32;
        let bits = pick(&[0, 1 << 31, 0x7f80_0000, 0x7fc0_0001, random.bits()], random);
        match random.below(20) {
            0 => writer.put(RESET, &[]),
            1 | 2 => writer.put(CURRENT, &[]),
            3 => writer.put(GET, &[key]),
            4 => writer.put(SET_MISSING, &[random.below(64) as u32, key]),
            5 => writer.put(SET_MISSING, &[random.below(64) as u32, NO_KEY]),
            6 => writer.put(CLEAR, &[]),
            7 => writer.put(SET_CLOCK, &[u32::MAX - random.below(3) as u32]),
            8 => writer.put(SET_MISSES, &[pick(&[0, 1, 2, 254, 255], random), bits]),
            9 => writer.put(SET_NO_MATCH, &[]),
            10 | 11 => self.challenge(writer, random),
            12..17 => self.change(writer, random, bits),
            17 => writer.put(pick(&[31, 36, 47, 52, u32::MAX], random), &[]),
            _ => writer.settle(key),
        };
    }

    /// A challenger that is accepted: none, or an edge of the current match's tile.
    fn challenge(&self, writer: &mut Writer, random: &mut Random) -> Ending {
        let Some(m) = writer.oracle.matcher.current.filter(|m| m.tile.edges > 0) else {
            return writer.put(SET_CHALLENGER, &[NO_KEY]);
        };
        let edge = random.below(m.tile.edges.into()) as u16;
        let [key, crc, edges, edge] = of_id(m.tile, edge);
        let count = random.below(2) as u32;
        writer.put(SET_CHALLENGER, &[key, crc, edges, edge, count])
    }

    /// A field of the current match that is accepted as it then is.
    fn change(&self, writer: &mut Writer, random: &mut Random, bits: u32) -> Ending {
        let Some(m) = writer.oracle.matcher.current else {
            return writer.put(CURRENT, &[]);
        };
        let field = pick(&[1, 3, 3, 4, 5, 6, 6, 6, 7, 8, 9, 10, 11, 12], random);
        let value = match field {
            3 => random.below(m.tile.edges.into()) as u32,
            6 => random.below(3) as u32,
            _ => bits,
        };
        writer.put(SET_MATCH, &[field, value])
    }
}

/// A script of several rides on one network.
pub fn case(network: &Network, random: &mut Random, arena: Vec<u8>, fixes: usize) -> Case {
    Case::new(&network.pack, arena, |writer| {
        let mut left = fixes;
        // Of three scripts one starts with all tiles loaded, as far as there are pages.
        if random.below(3) == 0 {
            let h = &network.pack.header;
            for n in 0..u32::from(h.rows) * u32::from(h.cols) {
                writer.settle(n / u32::from(h.cols) << 16 | n % u32::from(h.cols));
            }
        }
        while left > 0 {
            let ride = Ride::new(network, random);
            for fix in ride.fixes(random).into_iter().take(left) {
                ride.fix(writer, random, fix);
                if random.below(12) == 0 {
                    ride.between(writer, random);
                }
                left -= 1;
            }
        }
    })
}

pub fn compare(tally: &mut Tally, random: &mut Random) {
    let network = network(random);
    if network.roads.is_empty() {
        return;
    }
    for _ in 0..3 {
        let pages = pick(&[1, 2, 4, 9, 16, 16, 24], random);
        let arena = vec![random.next() as u8; pages * PAGE_BYTES + random.below(3) as usize];
        case(&network, random, arena, 60).count(tally, "ride");
    }
}
