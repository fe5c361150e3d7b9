//! Sleds on the roads of a network: over its junctions from road to road, with noise, U-turns,
//! halts, leaps, and off the map and back.
use crate::matching::roads::{Network, Place};
use crate::random::{Random, pick};
use std::collections::HashMap;

/// A fix, and the milliseconds since the one before.
#[derive(Clone, Copy)]
pub struct Fix {
    pub place: Place,
    pub after: u64,
}

/// Fixes in a row that may lie off the grid.
const OUTSIDE: u32 = 6;

/// How a sled goes.
struct Going {
    /// Metres between fixes, and how far they lie from the road at most.
    step: f64,
    noise: f64,
    /// Milliseconds between fixes.
    every: u64,
    /// One fix in so many is out of the ordinary.
    odd: u64,
}

impl Going {
    fn new(random: &mut Random) -> Self {
        Self {
            step: pick(&[1.0, 4.0, 8.0, 8.0, 15.0, 30.0, 90.0], random),
            noise: pick(&[0.0, 1.0, 3.0, 5.0, 15.0, 45.0], random),
            every: pick(&[1_000, 1_000, 1_000, 200, 2_000, 700, 9_000], random),
            odd: pick(&[6, 20, 80], random),
        }
    }
}

pub struct Sled<'n> {
    pub network: &'n Network,
    /// Roads that begin or end at a place, and whether they begin there.
    ends: HashMap<(i64, i64), Vec<(usize, bool)>>,
}

impl<'n> Sled<'n> {
    pub fn new(network: &'n Network) -> Self {
        let mut ends: HashMap<(i64, i64), Vec<(usize, bool)>> = HashMap::new();
        for (n, road) in network.roads.iter().enumerate() {
            let (first, last) = (road.places[0], road.places[road.places.len() - 1]);
            ends.entry((first.0, first.1)).or_default().push((n, true));
            ends.entry((last.0, last.1)).or_default().push((n, false));
        }
        Self { network, ends }
    }

    fn places(&self, road: usize, forward: bool) -> Vec<Place> {
        let mut places = self.network.roads[road].places.clone();
        if !forward {
            places.reverse();
        }
        places
    }

    fn is_inside(&self, (x, y, _): Place) -> bool {
        let grid = &self.network.grid;
        (0..grid.width()).contains(&x) && (0..grid.height()).contains(&y)
    }

    /// The rest of a road from one of its places on, which lies on the grid if that is soon found.
    fn start(&self, random: &mut Random) -> Vec<Place> {
        let mut line = Vec::new();
        for _ in 0..12 {
            let road = random.below(self.network.roads.len() as u64) as usize;
            let places = self.places(road, random.below(2) == 0);
            let skip = random.below(places.len() as u64 - 1) as usize;
            line = places[skip..].to_vec();
            if self.is_inside(line[0]) {
                break;
            }
        }
        line
    }

    /// A line over the roads from one of them on, turning back now and then.
    fn line(&self, random: &mut Random) -> Vec<Place> {
        let mut line = self.start(random);
        let turn = pick(&[4, 12, 1_000], random);
        for _ in 0..random.below(24) {
            let end = line[line.len() - 1];
            if random.below(turn) == 0 {
                let back = line.iter().rev().skip(1).take(1 + random.below(4) as usize);
                let back: Vec<Place> = back.copied().collect();
                line.extend(back);
                break;
            }
            let Some(ways) = self.ends.get(&(end.0, end.1)) else {
                break;
            };
            let (road, forward) = pick(ways, random);
            line.extend(&self.places(road, forward)[1..]);
        }
        line
    }

    fn metres(&self, from: Place, to: Place) -> f64 {
        let (dx, dy) = ((to.0 - from.0) as f64, (to.1 - from.1) as f64);
        (dx * f64::from(self.network.grid.lon_um) * 1e-6).hypot(dy * 0.111_195)
    }

    fn near(&self, at: Place, metres: f64, random: &mut Random) -> Place {
        let [east, north] = [0; 2].map(|_| metres * f64::from(random.within(1_000)) / 1_000.0);
        self.network.grid.beside(at, east, north)
    }

    /// Fixes of a halt: at one place, or close about it, for longer than a heading lasts.
    fn halt(&self, at: Place, random: &mut Random) -> Vec<Fix> {
        let (close, every) = pick(&[(0.0, 1_000), (2.0, 1_000), (3.0, 9_000)], random);
        let many = pick(&[3, 8, 24, 40], random);
        let mut fix = |_| Fix { place: self.near(at, close, random), after: every };
        (0..many).map(&mut fix).collect()
    }

    /// Off the grid at one of its sides, and back to where it was.
    fn outside(&self, at: Place, random: &mut Random) -> Vec<Fix> {
        let (width, height) = (self.network.grid.width(), self.network.grid.height());
        let far = random.below(2_000) as i64;
        let (x, y, z) = at;
        let sides = [(-1 - far, y, z), (x, -1 - far, z), (width + far, y, z), (x, height + far, z)];
        let place = pick(&sides, random);
        let out = (0..1 + random.below(3) as i64).map(|n| (place.0 + n, place.1, z));
        out.chain([at]).map(|place| Fix { place, after: 1_000 }).collect()
    }

    /// What is out of the ordinary.
    fn odd(&self, at: Place, random: &mut Random) -> Vec<Fix> {
        let (width, height) = (self.network.grid.width(), self.network.grid.height());
        let [x, y] = [width, height].map(|n| random.below(n as u64) as i64);
        let size = i64::from(self.network.grid.size);
        let corner = (x / size * size, y / size * size, 0);
        let far = self.near(at, 300.0, random);
        let after = pick(&[0, 1_999, 2_000, 120_000, 120_001, 1 << 32], random);
        match random.below(8) {
            0 | 1 => self.halt(at, random),
            2 | 3 => self.outside(at, random),
            4 => vec![Fix { place: far, after: 1_000 }],
            5 => vec![Fix { place: (x, y, 0), after: 1_000 }],
            6 => vec![Fix { place: corner, after: 1_000 }],
            _ => vec![Fix { place: at, after }],
        }
    }

    /// At most so many fixes along a line.
    pub fn fixes(&self, random: &mut Random, most: usize) -> Vec<Fix> {
        let (line, going) = (self.line(random), Going::new(random));
        let (mut out, mut outside) = (Vec::new(), 0);
        for pair in line.windows(2) {
            let metres = self.metres(pair[0], pair[1]);
            let count = (metres / going.step).ceil().clamp(1.0, 30.0);
            for n in 0..count as u32 {
                let t = f64::from(n) / count;
                let mix = |a: i64, b: i64| a + ((b - a) as f64 * t) as i64;
                let at = (mix(pair[0].0, pair[1].0), mix(pair[0].1, pair[1].1), 0);
                if random.below(going.odd) == 0 {
                    out.extend(self.odd(at, random));
                }
                let place = self.near(at, going.noise, random);
                out.push(Fix { place, after: going.every });
                outside = if self.is_inside(place) { 0 } else { outside + 1 };
                if out.len() >= most || outside > OUTSIDE {
                    return out;
                }
            }
        }
        out
    }

    /// Latitude and longitude of a place, held to what a fix may be.
    pub fn point(&self, place: Place) -> (i32, i32) {
        let grid = &self.network.grid;
        let held = |from: i32, n: i64| (i64::from(from) + n).clamp(-360_000_000, 360_000_000);
        (held(grid.south, place.1) as i32, held(grid.west, place.0) as i32)
    }
}
