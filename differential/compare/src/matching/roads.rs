//! Packs with road networks from a seed: roads as lines over the whole grid, cut where they cross
//! from tile to tile.
use crate::cache::packs::Pack;
use crate::packs::{Plain, sector, words};
use crate::random::{Random, pick};
use oracle::pack::{Header, TileKey};
use oracle::tile::{Edge, Node};
use oracle_cache::pack as shown;
use std::collections::{BTreeMap, HashMap};

/// Micro-degrees east and north of the grid's corner, and the elevation as tiles have it.
pub type Place = (i64, i64, u16);

#[derive(Clone)]
pub struct Road {
    pub places: Vec<Place>,
    pub class: u8,
    pub flags: u8,
    pub group: u16,
}

/// Where a grid lies and how large its tiles are.
#[derive(Clone, Copy)]
pub struct Grid {
    pub size: u32,
    pub rows: u16,
    pub cols: u16,
    pub south: i32,
    pub west: i32,
    pub lon_um: u32,
}

impl Grid {
    /// Micro-degrees of so many metres east and north.
    pub fn metres(&self, east: f64, north: f64) -> (i64, i64) {
        ((east * 1e6 / f64::from(self.lon_um)) as i64, (north * 1e6 / 111_195.0) as i64)
    }

    pub fn width(&self) -> i64 {
        i64::from(self.size) * i64::from(self.cols)
    }

    pub fn height(&self) -> i64 {
        i64::from(self.size) * i64::from(self.rows)
    }

    /// A place moved by so many metres.
    pub fn beside(&self, from: Place, east: f64, north: f64) -> Place {
        let (x, y) = self.metres(east, north);
        (from.0 + x, from.1 + y, from.2)
    }
}

/// What becomes of a tile.
#[derive(Clone, Copy, PartialEq)]
pub enum Fate {
    There,
    /// No entry, so it is missing once it is asked for.
    Left,
    /// Its sum is wrong: missing too.
    Spoilt,
}

pub struct Network {
    pub grid: Grid,
    pub roads: Vec<Road>,
    pub pack: Pack,
    pub plains: Vec<Plain>,
}

/// The line's places with one more wherever it crosses from tile to tile.
fn crossings(places: &[Place], size: i64) -> Vec<Place> {
    let mut out = vec![places[0]];
    for &to in &places[1..] {
        let mut from = out[out.len() - 1];
        while let Some(next) = crossing(from, to, size) {
            out.push(next);
            from = next;
        }
        out.push(to);
    }
    out
}

/// The first line between tiles that is crossed on the way, ends aside.
fn crossing(from: Place, to: Place, size: i64) -> Option<Place> {
    let line = |a: i64, b: i64| {
        let next = if b > a { a.div_euclid(size) + 1 } else { (a - 1).div_euclid(size) } * size;
        let within = if b > a { next < b } else { next > b };
        (a != b && within).then_some(next)
    };
    let part = |a: i64, b: i64, at: i64| (at - a) as f64 / (b - a) as f64;
    let x = line(from.0, to.0).map(|at| (part(from.0, to.0, at), at, true));
    let y = line(from.1, to.1).map(|at| (part(from.1, to.1, at), at, false));
    let (t, at, is_x) = match (x, y) {
        (Some(x), Some(y)) => Some(if x.0 <= y.0 { x } else { y }),
        (x, y) => x.or(y),
    }?;
    let mix = |a: i64, b: i64| a + ((b - a) as f64 * t) as i64;
    let z = mix(from.2.into(), to.2.into()) as u16;
    Some(if is_x { (at, mix(from.1, to.1), z) } else { (mix(from.0, to.0), at, z) })
}

/// The tile that a part between two lines lies in.
fn tile_of(a: Place, b: Place, grid: &Grid) -> Option<TileKey> {
    let size = i64::from(grid.size);
    let index = |a: i64, b: i64, count: u16| {
        let n = if a == b && a == size * i64::from(count) {
            i64::from(count) - 1
        } else {
            a.min(b).div_euclid(size)
        };
        let inside = n >= 0 && n < i64::from(count) && a.max(b) <= (n + 1) * size;
        inside.then_some(n as u16)
    };
    Some(TileKey { row: index(a.1, b.1, grid.rows)?, col: index(a.0, b.0, grid.cols)? })
}

/// Edges of one tile under way.
#[derive(Default)]
struct Tile {
    nodes: Vec<Node>,
    numbers: HashMap<(u16, u16), u16>,
    edges: Vec<Edge>,
    vertices: Vec<Node>,
}

impl Tile {
    /// Roads that end at one place share its node.
    fn node(&mut self, node: Node) -> u16 {
        let next = self.nodes.len() as u16;
        let number = *self.numbers.entry((node.x, node.y)).or_insert(next);
        if number == next {
            self.nodes.push(node);
        }
        number
    }

    fn edge(&mut self, road: &Road, nodes: &[Node]) {
        let (from, to) = (self.node(nodes[0]), self.node(nodes[nodes.len() - 1]));
        let first_vertex = self.vertices.len() as u32;
        self.vertices.extend(&nodes[1..nodes.len() - 1]);
        let vertices = (nodes.len() - 2) as u16;
        let Road { class, flags, group, .. } = *road;
        self.edges.push(Edge { from, to, first_vertex, vertices, class, flags, group });
    }

    fn bytes(&self) -> usize {
        32 + 8 * self.nodes.len() + 20 * self.edges.len() + 6 * self.vertices.len()
    }
}

/// The largest tile that a cache takes.
pub const LARGEST: usize = 49_152;

fn put(tiles: &mut BTreeMap<(u16, u16), Tile>, road: &Road, grid: &Grid) {
    let places = crossings(&road.places, grid.size.into());
    let mut at = 0;
    while at + 1 < places.len() {
        let Some(key) = tile_of(places[at], places[at + 1], grid) else {
            at += 1;
            continue;
        };
        let mut end = at + 1;
        while end + 1 < places.len() && tile_of(places[end], places[end + 1], grid) == Some(key) {
            end += 1;
        }
        let corner = |n: u16| i64::from(n) * i64::from(grid.size);
        let node = |p: &Place| Node {
            x: (p.0 - corner(key.col)) as u16,
            y: (p.1 - corner(key.row)) as u16,
            z: p.2,
        };
        let nodes: Vec<Node> = places[at..=end].iter().map(node).collect();
        let tile = tiles.entry((key.row, key.col)).or_default();
        if tile.bytes() + 36 + 6 * nodes.len() <= LARGEST {
            tile.edge(road, &nodes);
        }
        at = end;
    }
}

impl Network {
    /// The roads' pack; `fate` says what becomes of each tile. A tile without roads is left out.
    pub fn new(grid: Grid, roads: Vec<Road>, fate: impl FnMut(TileKey) -> Fate) -> Self {
        Self::with(grid, roads, fate, |_| {})
    }

    /// The same, each tile changed before it is written.
    pub fn with(
        grid: Grid,
        roads: Vec<Road>,
        mut fate: impl FnMut(TileKey) -> Fate,
        mut change: impl FnMut(&mut Plain),
    ) -> Self {
        let mut tiles = BTreeMap::new();
        roads.iter().for_each(|road| put(&mut tiles, road, &grid));
        let data = 512 + 8 * u32::from(grid.rows) * u32::from(grid.cols);
        let (mut directory, mut bytes, mut plains) = (Vec::new(), Vec::new(), Vec::new());
        for (row, col) in (0..grid.rows).flat_map(|row| (0..grid.cols).map(move |col| (row, col))) {
            let key = TileKey { row, col };
            let fate = fate(key);
            let tile = tiles.remove(&(row, col)).filter(|_| fate != Fate::Left);
            let Some(tile) = tile else {
                directory.extend([0; 8]);
                continue;
            };
            let mut plain = plain(key, grid.lon_um, tile);
            change(&mut plain);
            let mut tile = plain.bytes();
            tile[24] ^= u8::from(fate == Fate::Spoilt);
            let entry = [data + bytes.len() as u32, tile.len() as u32];
            directory.extend(entry.into_iter().flat_map(u32::to_le_bytes));
            bytes.extend(tile);
            plains.push(plain);
        }
        let header = header(&grid, data, data + bytes.len() as u32);
        let bytes = [&sector(&words(&header))[..], &directory, &bytes].concat();
        let first = bytes[..512].try_into().expect("512 bytes");
        let pack = Pack { header: shown::Header::parse(first).expect("a good header"), bytes };
        Self { grid, roads, pack, plains }
    }
}

fn plain(key: TileKey, lon_um: u32, tile: Tile) -> Plain {
    let Tile { nodes, edges, vertices, .. } = tile;
    let (starts, entries) = (Vec::new(), Vec::new());
    let mut plain = Plain { key, lon_um, nodes, starts, entries, edges, vertices };
    plain.sort();
    plain
}

fn header(grid: &Grid, data: u32, total: u32) -> Header {
    Header {
        tile: grid.size,
        south: grid.south,
        west: grid.west,
        rows: grid.rows,
        cols: grid.cols,
        directory: 512,
        data,
        total,
        tiles: 0,
        created: 0,
        attribution_offset: 0,
        attribution_len: 0,
    }
}

/// A grid anywhere; most tiles some hundred metres wide, some smaller than a match reaches.
pub fn grid(random: &mut Random) -> Grid {
    let size = pick(&[300, 700, 1_500, 3_000, 3_000, 6_000, 20_000, 65_535], random);
    let (rows, cols) = pick(&[(1, 1), (1, 2), (2, 2), (2, 2), (2, 3), (3, 3)], random);
    let ends = [-360_000_000, 360_000_000 - 3 * size as i32, 0, -1_000];
    let north = pick(&[47_000_000, -60_000_000, 70_000_000, 12_345_678], random);
    let south = if random.below(6) == 0 { pick(&ends, random) } else { north };
    let west = if random.below(6) == 0 { pick(&ends, random) } else { random.within(180_000_000) };
    let lon_um = crate::angles::lon_scale_of_rust(if south.abs() > 90_000_000 { 0 } else { south });
    let odd = pick(&[1, 111_195, 40_000, u32::MAX], random);
    let lon_um = if random.below(24) == 0 { odd } else { lon_um };
    Grid { size, rows, cols, south, west, lon_um }
}

/// Roads under way, and a place that they lie around.
struct Plan<'r> {
    grid: Grid,
    random: &'r mut Random,
    roads: Vec<Road>,
}

impl Plan<'_> {
    fn z(&mut self) -> u16 {
        let some = 2_500 + self.random.below(5_000) as u16;
        pick(&[some, some, some, 0, u16::MAX, 2_500], self.random)
    }

    /// Anywhere on the grid, often at a corner or on a line between tiles.
    fn place(&mut self) -> Place {
        let (z, size) = (self.z(), u64::from(self.grid.size));
        let [x, y] = [self.grid.width(), self.grid.height()].map(|n| self.random.below(n as u64));
        let line = |n: u64| n / size * size;
        match self.random.below(6) {
            0 => (line(x) as i64, line(y) as i64, z),
            1 => (line(x) as i64, y as i64, z),
            2 => (x as i64, line(y) as i64, z),
            _ => (x as i64, y as i64, z),
        }
    }

    fn add(&mut self, places: Vec<Place>) {
        let some = self.random.below(64) as u8;
        let flags = pick(&[0, 0, 1, 1, some], self.random);
        let (class, group) = (1 + self.random.below(10) as u8, self.random.bits() as u16);
        if places.len() > 1 {
            self.roads.push(Road { places, class, flags, group });
        }
    }

    /// Metres that many roads of a plan reach.
    fn reach(&mut self) -> f64 {
        (20 + self.random.below(400)) as f64
    }

    fn straight(&mut self) {
        let (from, reach) = (self.place(), self.reach());
        let angle = self.angle();
        let to = self.grid.beside(from, reach * angle.sin(), reach * angle.cos());
        let to = (to.0, to.1, self.z());
        self.add(vec![from, to]);
    }

    /// Any angle, often along an axis or a diagonal.
    fn angle(&mut self) -> f64 {
        let eighths = self.random.below(8) as f64 / 4.0;
        let any = self.random.below(10_000) as f64 / 5_000.0;
        pick(&[eighths, any, any], self.random) * std::f64::consts::PI
    }

    fn curved(&mut self) {
        let (mut at, mut angle) = (self.place(), self.angle());
        let bend = self.random.within(400) as f64 / 1_000.0;
        let step = (3 + self.random.below(25)) as f64;
        let mut places = vec![at];
        for _ in 0..5 + self.random.below(40) {
            at = self.grid.beside(at, step * angle.sin(), step * angle.cos());
            at.2 = at.2.saturating_add_signed(self.random.within(20) as i16);
            places.push(at);
            angle += bend;
        }
        self.add(places);
    }

    /// Straight roads side by side, some in one place: their costs are equal.
    fn parallel(&mut self) {
        let (from, reach, angle) = (self.place(), self.reach(), self.angle());
        let count = pick(&[2, 2, 3, 9, 12, 20], self.random);
        let apart = pick(&[0.0, 2.0, 5.0, 8.0, 15.0, 30.0], self.random);
        for n in 0..count {
            let aside = apart * f64::from(n);
            let a = self.grid.beside(from, aside * angle.cos(), -aside * angle.sin());
            let b = self.grid.beside(a, reach * angle.sin(), reach * angle.cos());
            let back = self.random.below(3) == 0;
            self.add(if back { vec![b, a] } else { vec![a, b] });
        }
    }

    fn hairpins(&mut self) {
        let (mut at, reach, wide) = (self.place(), self.reach() / 4.0, 4 + self.random.below(30));
        let mut places = vec![at];
        for n in 0..3 + self.random.below(6) {
            at = self.grid.beside(at, if n % 2 == 0 { reach } else { -reach }, 1.0);
            places.push(at);
            at = self.grid.beside(at, 0.0, wide as f64);
            places.push(at);
        }
        self.add(places);
    }

    /// Roads from one place, and roads on from their ends.
    fn junction(&mut self) {
        let (center, arms) = (self.place(), 3 + self.random.below(8));
        for _ in 0..arms {
            let (reach, angle) = (self.reach() / 2.0, self.angle());
            let end = self.grid.beside(center, reach * angle.sin(), reach * angle.cos());
            let mid =
                self.grid.beside(center, reach * angle.sin() / 2.0, reach * angle.cos() / 2.0);
            let inward = self.random.below(2) == 0;
            self.add(if inward { vec![end, mid, center] } else { vec![center, end] });
            let [east, north] = [0; 2].map(|_| self.reach() / 3.0);
            let on = self.grid.beside(end, east, north);
            self.add(vec![end, on]);
        }
    }

    /// A road in pieces that are joined, each some metres long.
    fn pieces(&mut self) {
        let (mut at, mut angle) = (self.place(), self.angle());
        let step = (8 + self.random.below(60)) as f64;
        for _ in 0..4 + self.random.below(12) {
            angle += self.random.within(900) as f64 / 1_000.0;
            let next = self.grid.beside(at, step * angle.sin(), step * angle.cos());
            let back = self.random.below(3) == 0;
            self.add(if back { vec![next, at] } else { vec![at, next] });
            at = next;
        }
    }

    /// Streets as a net.
    fn blocks(&mut self) {
        let (from, apart) = (self.place(), (15 + self.random.below(80)) as f64);
        let count = 2 + self.random.below(4);
        for (n, m) in (0..count).flat_map(|n| (0..count).map(move |m| (n, m))) {
            let at = self.grid.beside(from, apart * n as f64, apart * m as f64);
            let east = self.grid.beside(at, apart, 0.0);
            let north = self.grid.beside(at, 0.0, apart);
            self.add(vec![at, east]);
            self.add(vec![north, at]);
        }
    }

    /// Hundreds of vertices a metre or so apart, some of them twice.
    fn many_vertices(&mut self) {
        let mut at = self.place();
        let mut places = vec![at];
        for _ in 0..200 + self.random.below(600) {
            let [east, north] = [0; 2].map(|_| self.random.within(15) as f64 / 10.0);
            at = self.grid.beside(at, east + 1.0, north);
            at.2 = self.random.bits() as u16;
            places.push(at);
        }
        self.add(places);
    }

    /// Edges without length and edges that end where they begin.
    fn loops(&mut self) {
        let at = self.place();
        self.add(vec![at, at]);
        let reach = self.reach() / 4.0;
        let corner = self.grid.beside(at, reach, 0.0);
        let other = self.grid.beside(at, reach, reach);
        self.add(vec![at, corner, other, at]);
        self.add(vec![at, corner, corner, other]);
    }

    fn any(&mut self) {
        match self.random.below(12) {
            0 | 1 => self.straight(),
            2 => self.curved(),
            3 | 4 => self.parallel(),
            5 => self.hairpins(),
            6 | 7 => self.junction(),
            8 => self.pieces(),
            9 => self.blocks(),
            10 => self.many_vertices(),
            _ => self.loops(),
        }
    }
}

/// A network of a few plans on a grid; some tiles are left out or spoilt.
pub fn network(random: &mut Random) -> Network {
    let grid = grid(random);
    let plans = 1 + random.below(8);
    let mut plan = Plan { grid, random, roads: Vec::new() };
    (0..plans).for_each(|_| plan.any());
    let Plan { roads, random, .. } = plan;
    let holes = random.below(3) == 0;
    Network::new(grid, roads, |_| match random.below(8) {
        0 if holes => Fate::Left,
        1 if holes => Fate::Spoilt,
        _ => Fate::There,
    })
}
