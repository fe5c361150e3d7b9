//! Packs with networks of roads for predictions, from a seed; some tiles are changed as no builder
//! would.
use super::town::{Kind, Town, Trail};
use crate::matching::roads::{Fate, Grid, LARGEST, Network, Road};
use crate::packs::Plain;
use crate::random::{Random, pick};
use oracle::tile::{Edge, Node};

/// Bytes of a tile.
fn len(plain: &Plain) -> usize {
    32 + 8 * plain.nodes.len() + 20 * plain.edges.len() + 6 * plain.vertices.len()
}

/// Edges without length between an edge and its end, each with a node of its own.
fn stretch(plain: &mut Plain, random: &mut Random) {
    let n = random.below(plain.edges.len() as u64) as usize;
    let many = pick(&[1, 2, 5, 20, 140], random);
    let last = plain.edges[n].to;
    let node = plain.nodes[usize::from(last)];
    for _ in 0..many {
        if len(plain) + 28 > LARGEST {
            break;
        }
        let from = plain.nodes.len() as u16;
        plain.nodes.push(node);
        let old = plain.edges.len() - 1;
        let of = if plain.edges[n].to == last { n } else { old };
        plain.edges[of].to = from;
        let vertices = 0;
        plain.edges.push(Edge { from, to: last, first_vertex: 0, vertices, ..plain.edges[n] });
    }
    plain.sort();
}

/// Vertices of no edge, so that the tile takes another number of pages.
fn pad(plain: &mut Plain, random: &mut Random) {
    let wanted = pick(&[8_192, 8_194, 16_384, 20_000, 40_000, LARGEST], random);
    let room = wanted.saturating_sub(len(plain)) / 6;
    plain.vertices.extend((0..room).map(|n| Node { x: n as u16, y: 7, z: 9 }));
}

/// Entries that name any edge at any node, and starts that fall.
fn scramble(plain: &mut Plain, random: &mut Random) {
    let (edges, entries) = (plain.edges.len() as u64, plain.entries.len() as u64);
    for _ in 0..1 + random.below(8) {
        let n = random.below(entries) as usize;
        plain.entries[n] = (random.below(edges) << 1 | random.below(2)) as u16;
    }
    if random.below(2) == 0 {
        let n = random.below(plain.starts.len() as u64) as usize;
        plain.starts[n] = random.below(entries + 1) as u16;
    }
}

/// How often tiles of a network are changed: one in so many, 0 never.
struct Changes {
    stretched: u64,
    padded: u64,
    scrambled: u64,
    /// Another scale of longitude for one tile in so many.
    scaled: u64,
}

fn one_in(random: &mut Random, n: u64) -> bool {
    n > 0 && random.below(n) == 0
}

impl Changes {
    fn new(random: &mut Random) -> Self {
        Self {
            stretched: pick(&[0, 0, 0, 2], random),
            padded: pick(&[0, 0, 0, 1, 3], random),
            scrambled: pick(&[0, 0, 0, 0, 0, 0, 0, 3], random),
            scaled: pick(&[0, 0, 0, 0, 0, 0, 0, 0, 0, 0, 0, 2], random),
        }
    }

    fn change(&self, plain: &mut Plain, random: &mut Random) {
        if one_in(random, self.stretched) {
            stretch(plain, random);
        }
        if one_in(random, self.scrambled) {
            scramble(plain, random);
        }
        if one_in(random, self.padded) {
            pad(plain, random);
        }
        if one_in(random, self.scaled) {
            plain.lon_um = pick(&[1, 111_195, 3_000_000, u32::MAX], random);
        }
    }
}

/// A grid anywhere, with tiles of all sizes; some reach the ends of what grids may.
fn grid(random: &mut Random) -> Grid {
    let size = pick(&[300, 700, 1_500, 3_000, 3_000, 6_000, 20_000, 20_000, 65_535], random);
    let (rows, cols) = pick(&[(1, 1), (1, 2), (2, 2), (2, 2), (2, 3), (3, 3), (4, 5)], random);
    let limit = 360_000_000;
    let ends = [-limit, limit - i32::from(rows) * size as i32, 0, -1_000];
    let north = pick(&[47_000_000, -60_000_000, 70_000_000, 12_345_678], random);
    let south = if random.below(6) == 0 { pick(&ends, random) } else { north };
    let ends = [-limit, limit - i32::from(cols) * size as i32];
    let west = if random.below(6) == 0 { pick(&ends, random) } else { random.within(180_000_000) };
    let lon_um = crate::angles::lon_scale_of_rust(if south.abs() > 90_000_000 { 0 } else { south });
    Grid { size, rows, cols, south, west, lon_um }
}

/// A network of a few plans; some tiles are left out or spoilt.
pub fn network(random: &mut Random) -> Network {
    let (grid, plans) = (grid(random), 1 + random.below(10));
    let mut town = Town { grid, random, roads: Vec::new() };
    (0..plans).for_each(|_| town.any());
    let Town { roads, random, .. } = town;
    built(grid, roads, random)
}

fn built(grid: Grid, roads: Vec<Road>, random: &mut Random) -> Network {
    let (holes, changes) = (random.below(3) == 0, Changes::new(random));
    let mut other = Random(random.next());
    let fate = |_| match random.below(8) {
        0 if holes => Fate::Left,
        1 if holes => Fate::Spoilt,
        _ => Fate::There,
    };
    Network::with(grid, roads, fate, |plain| changes.change(plain, &mut other))
}

/// Every tile there, and none changed.
pub fn plain(grid: Grid, roads: Vec<Road>) -> Network {
    Network::new(grid, roads, |_| Fate::There)
}

/// One road of one name that goes east over all columns of a grid of one row, in pieces of so many
/// metres, with side roads at one joint in so many (0 at none).
pub fn highway(grid: Grid, step: f64, sides: u64, random: &mut Random) -> Network {
    let metres = grid.width() as f64 * f64::from(grid.lon_um) * 1e-6;
    let kind = Kind { class: 3, flags: 0, group: 7 };
    let pieces = (metres / step) as u64;
    let trail = Trail { kind, step, pieces, bend: 0, sides };
    let mut town = Town { grid, random, roads: Vec::new() };
    town.trail((0, i64::from(grid.size) / 2, 3_000), std::f64::consts::FRAC_PI_2, &trail);
    plain(grid, town.roads)
}
