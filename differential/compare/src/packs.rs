//! Headers, tiles and packs from a seed, as a builder writes them and as none would, and their
//! bytes, whose CRC can be repaired after damage.
use crate::random::{Random, pick};
use oracle::cache::MAX_TILE_BYTES;
use oracle::pack::{Header, MAGIC, TileKey, VERSION};
use oracle::tile::{Edge, Node, crc32};

/// How far a grid and a point may reach, in millionths of a degree.
pub const LIMIT: i32 = 360_000_000;

/// A header and an edge as the port takes them.
pub type Words = [u32; 13];
pub type EdgeWords = [u32; 7];

pub fn words(h: &Header) -> Words {
    let [rows, cols] = [h.rows, h.cols].map(u32::from);
    let (south, west) = (h.south as u32, h.west as u32);
    let [low, high] = [h.created as u32, (h.created >> 32) as u32];
    let (offset, len) = (h.attribution_offset, h.attribution_len);
    #[rustfmt::skip]
    return [h.tile, south, west, rows, cols, h.directory, h.data, h.total, h.tiles, low, high, offset, len];
}

/// An edge as the port takes it; of most words the low bits count, and `stray` fills the others.
pub fn edge_words(e: &Edge, stray: u32) -> EdgeWords {
    let [from, to, count, group] =
        [e.from, e.to, e.vertices, e.group].map(|n| u32::from(n) | stray << 16);
    let [class, flags] = [e.class, e.flags].map(|n| u32::from(n) | stray << 8);
    [from, to, e.first_vertex, count, class, flags, group]
}

pub fn seal_sector(sector: &mut [u8; 512]) {
    let sum = crc32(&sector[..508]);
    sector[508..].copy_from_slice(&sum.to_le_bytes());
}

pub fn sector(words: &Words) -> [u8; 512] {
    let mut bytes = [&MAGIC[..], &VERSION.to_le_bytes(), &[0; 2]].concat();
    for (n, word) in words.iter().enumerate() {
        bytes.extend(&word.to_le_bytes()[..if n == 3 || n == 4 { 2 } else { 4 }]);
    }
    bytes.resize(512, 0);
    let mut sector = bytes.try_into().expect("512 bytes");
    seal_sector(&mut sector);
    sector
}

/// The directory follows from rows and columns; what passes 32 bits is cut off.
fn fit(h: &mut Header) {
    h.data = (u64::from(h.directory) + 8 * u64::from(h.rows) * u64::from(h.cols)) as u32;
    h.total = h.total.max(h.data);
}

/// Where a grid may begin, often at an end.
fn corner(random: &mut Random, tiles: u64, size: u32) -> i32 {
    let (first, last) = (-LIMIT, LIMIT - (tiles * u64::from(size)) as i32);
    pick(&[first, last, random.between(first.into(), last.into()) as i32], random)
}

/// Any header that is accepted, often at a limit: tile sizes, counts, ends of the grid.
pub fn header(random: &mut Random) -> Header {
    let tile =
        pick(&[1, 2, 1_000, 20_000, 65_534, 65_535, 1 + random.below(65_535) as u32], random);
    let most = (2 * LIMIT as u64 / u64::from(tile)).min(65_535);
    let mut count = |most: u64| {
        let few = 1 + random.below(most.min(6));
        pick(&[1, few, few, few, 1 + random.below(most), most], random)
    };
    let rows = count(most);
    let cols = count(most.min((1 << 29) / rows - 1));
    let (south, west) = (corner(random, rows, tile), corner(random, cols, tile));
    let room = u32::MAX - (8 * rows * cols) as u32;
    let directory = pick(&[0, 512, 1_024, room, random.bits()], random).min(room);
    let data = u32::MAX - room + directory;
    let total = pick(&[data, u32::MAX, data.max(random.bits())], random);
    let [tiles, attribution_offset, attribution_len] = [0; 3].map(|_| random.bits());
    let (rows, cols, created) = (rows as u16, cols as u16, random.next());
    #[rustfmt::skip]
    return Header { tile, south, west, rows, cols, directory, data, total, tiles, created, attribution_offset, attribution_len };
}

pub const RULES: u64 = 16;

/// A small header that breaks one rule, by as little as can be or by much.
pub fn broken(random: &mut Random, rule: u64) -> Header {
    let mut h = Header { directory: 512, total: 1 << 20, ..header(random) };
    (h.rows, h.cols) = (1 + random.below(4) as u16, 1 + random.below(4) as u16);
    (h.south, h.west) = (random.within(LIMIT / 2), random.within(LIMIT / 2));
    let end = |tiles: u16| LIMIT - i32::from(tiles) * h.tile as i32;
    match rule {
        0 => h.tile = 0,
        1 => h.tile = 65_536,
        2 => h.tile = u32::MAX,
        3 => h.rows = 0,
        4 => h.cols = 0,
        5 => h.south = -LIMIT - 1,
        6 => h.west = -LIMIT - 1,
        7 => h.south = end(h.rows) + 1,
        8 => h.west = end(h.cols) + 1,
        9 => h.south = i32::MIN,
        10 => h.west = i32::MAX,
        // A directory whose end is right but for the bits past 32.
        11 => (h.tile, h.rows, h.cols) = (1, 32_768, 32_768),
        12 => h.directory = u32::MAX - 7,
        _ => {}
    }
    fit(&mut h);
    match rule {
        13 => h.data += 1,
        14 => h.data -= 1,
        15 => h.total = h.data - 1,
        _ => {}
    }
    h
}

/// A tile before it is bytes.
#[derive(Clone)]
pub struct Plain {
    pub key: TileKey,
    pub lon_um: u32,
    pub nodes: Vec<Node>,
    /// Each node's first entry.
    pub starts: Vec<u16>,
    pub entries: Vec<u16>,
    pub edges: Vec<Edge>,
    pub vertices: Vec<Node>,
}

/// What nodes are ordered by: y, then x.
pub fn place(node: &Node) -> (u16, u16) {
    (node.y, node.x)
}

/// Repairs a tile's CRC, if it is long enough to hold one.
pub fn seal(bytes: &mut [u8]) {
    if bytes.len() >= 28 {
        bytes[24..28].fill(0);
        let sum = crc32(bytes);
        bytes[24..28].copy_from_slice(&sum.to_le_bytes());
    }
}

impl Plain {
    pub fn key(&self) -> [u32; 2] {
        [self.key.row.into(), self.key.col.into()]
    }

    pub fn bytes(&self) -> Vec<u8> {
        let two = |n: u32| [n as u16, (n >> 16) as u16];
        let counts = [self.nodes.len() as u16, self.edges.len() as u16];
        let mut shorts = vec![u16::from_le_bytes(*b"VT"), 1, self.key.row, self.key.col];
        shorts.extend(counts.into_iter().chain(two(self.vertices.len() as u32)));
        shorts.extend(two(self.lon_um).into_iter().chain([0; 6]));
        for (node, start) in self.nodes.iter().zip(&self.starts) {
            shorts.extend([node.x, node.y, node.z, *start]);
        }
        shorts.extend(&self.entries);
        for e in &self.edges {
            let ([low, high], kind) = (two(e.first_vertex), u16::from_le_bytes([e.class, e.flags]));
            shorts.extend([e.from, e.to, low, high, e.vertices, kind, e.group, 0]);
        }
        shorts.extend(self.vertices.iter().flat_map(|v| [v.x, v.y, v.z]));
        let mut bytes: Vec<u8> = shorts.into_iter().flat_map(u16::to_le_bytes).collect();
        seal(&mut bytes);
        bytes
    }

    /// Entries by node, then edge, start before end; what 16 bits can't say is held to them.
    pub fn link(&mut self) {
        let mut lists = vec![Vec::new(); self.nodes.len()];
        for (n, edge) in self.edges.iter().enumerate() {
            lists[usize::from(edge.from)].push((n << 1) as u16);
            lists[usize::from(edge.to)].push((n << 1 | 1) as u16);
        }
        let mut sum = 0;
        let start = |list: &Vec<u16>| {
            sum += list.len();
            (sum - list.len()).min(65_535) as u16
        };
        self.starts = lists.iter().map(start).collect();
        self.entries = lists.concat();
    }

    /// Nodes by y, then x, as `Tile::parse` wants them; edges and entries follow.
    pub fn sort(&mut self) {
        let mut order: Vec<usize> = (0..self.nodes.len()).collect();
        order.sort_by_key(|&n| place(&self.nodes[n]));
        let mut number = vec![0; order.len()];
        order.iter().enumerate().for_each(|(to, &from)| number[from] = to as u16);
        self.nodes = order.iter().map(|&n| self.nodes[n]).collect();
        for edge in &mut self.edges {
            (edge.from, edge.to) = (number[usize::from(edge.from)], number[usize::from(edge.to)]);
        }
        self.link();
    }

    /// Whether no later node lies below an earlier one.
    pub fn is_sorted(&self) -> bool {
        self.nodes.is_sorted_by_key(place)
    }

    /// An edge between two of the nodes, with vertices about the line, so some past the tile.
    fn road(&mut self, random: &mut Random, size: u32, count: usize) {
        let [from, to] = [0; 2].map(|_| random.below(self.nodes.len() as u64) as u16);
        let [a, b] = [from, to].map(|n| self.nodes[usize::from(n)]);
        let (first_vertex, vertices) = (self.vertices.len() as u32, count.min(65_535) as u16);
        for k in 1..=i64::from(vertices) {
            let mut mix = |a: u16, b: u16, jitter: u32| {
                let step = (i64::from(b) - i64::from(a)) * k / (i64::from(vertices) + 1);
                let jitter = random.between(-i64::from(jitter), jitter.into());
                (i64::from(a) + step + jitter).clamp(0, 65_535) as u16
            };
            let (x, y) = (mix(a.x, b.x, size / 8), mix(a.y, b.y, size / 8));
            self.vertices.push(Node { x, y, z: mix(a.z, b.z, 5) });
        }
        let (class, flags, group) =
            (1 + random.below(10) as u8, random.below(64) as u8, random.bits() as u16);
        self.edges.push(Edge { from, to, first_vertex, vertices, class, flags, group });
    }
}

/// Roads over the given nodes, in exactly `len` bytes if that is even and has room for them.
pub fn tile(random: &mut Random, key: TileKey, size: u32, nodes: Vec<Node>, len: usize) -> Plain {
    let room = len.saturating_sub(32 + 8 * nodes.len());
    let mut edges = if nodes.is_empty() { 0 } else { room / (20 + 6 * random.below(8) as usize) };
    // Of three numbers of edges in a row one leaves room for whole vertices.
    while edges > 0 && (room - 20 * edges) % 6 != 0 {
        edges -= 1;
    }
    let vertices = (room - 20 * edges) / 6;
    let mut cuts: Vec<usize> =
        (1..edges).map(|_| random.below(vertices as u64 + 1) as usize).collect();
    cuts.extend([0, vertices]);
    cuts.sort_unstable();
    let lon_um = pick(&[1, 111_195, 71_474, u32::MAX, random.bits() | 1], random);
    let (starts, entries) = (Vec::new(), Vec::new());
    let mut plain =
        Plain { key, lon_um, nodes, starts, entries, edges: Vec::new(), vertices: Vec::new() };
    for n in 0..edges {
        plain.road(random, size, cuts[n + 1] - cuts[n]);
    }
    // Where there are no edges the vertices are nobody's.
    plain.vertices.resize(vertices, Node { x: 1, y: 2, z: 3 });
    plain.link();
    plain
}

/// Some nodes anywhere in a tile, often on its edge, in order.
pub fn nodes(random: &mut Random, size: u32, count: usize) -> Vec<Node> {
    let mut some = || {
        let some = random.below(u64::from(size) + 1) as u16;
        pick(&[0, size as u16, some, some, some, some], random)
    };
    let mut nodes: Vec<Node> =
        (0..count).map(|_| Node { x: some(), y: some(), z: some() }).collect();
    nodes.sort_by_key(place);
    nodes
}

/// A tile alone and its size; one in four has starts that fall.
pub fn lone(random: &mut Random, len: usize) -> (Plain, u32) {
    let size = pick(&[1, 1_000, 20_000, 65_535, 1 + random.below(65_535) as u32], random);
    let key = TileKey { row: random.below(4) as u16, col: random.below(4) as u16 };
    let count = random.below(len.saturating_sub(32) as u64 / 16 + 1) as usize;
    let nodes = nodes(random, size, count);
    let mut plain = tile(random, key, size, nodes, len);
    if random.below(4) == 0 {
        let last = plain.entries.len().min(65_535) as u64;
        plain.starts.iter_mut().for_each(|start| *start = random.below(last + 1) as u16);
    }
    (plain, size)
}

/// A tile of under 200 bytes with an edge and a vertex at least.
pub fn small(random: &mut Random) -> (Plain, u32) {
    loop {
        let len = 70 + 2 * random.below(60) as usize;
        let (plain, size) = lone(random, len);
        if !plain.edges.is_empty() && !plain.vertices.is_empty() {
            return (plain, size);
        }
    }
}

/// A tile of under 200 bytes that is good but for the order of its nodes, and its size: two change
/// places, or one lies below the one before it by y, or by x at the same y.
pub fn unordered(random: &mut Random) -> (Plain, u32) {
    loop {
        let (mut plain, size) = small(random);
        let n = random.below(plain.nodes.len() as u64) as usize;
        let (last, before) = (plain.nodes.len() - 1, plain.nodes[n.saturating_sub(1)]);
        match random.below(3) {
            0 => plain.nodes.swap(n, random.below(last as u64 + 1) as usize),
            1 => plain.nodes[n].y = before.y.saturating_sub(1),
            _ => (plain.nodes[n].y, plain.nodes[n].x) = (before.y, before.x.saturating_sub(1)),
        }
        if !plain.is_sorted() {
            return (plain, size);
        }
    }
}

/// Places on a line or corner that tiles share: each asks with the same numbers and gets the same.
fn shared(seed: u64, line: u64, row: u64, col: u64, size: u32) -> Vec<(u16, u16)> {
    let mut random = Random(seed ^ (line << 60 | row << 30 | col));
    let count = random.below(4);
    (0..count).map(|_| (random.below(u64::from(size) + 1) as u16, random.bits() as u16)).collect()
}

/// The nodes on a tile's edge that the tiles on the other side have too.
fn portals(seed: u64, row: u64, col: u64, size: u32) -> Vec<Node> {
    let mut nodes = Vec::new();
    for side in 0..2 {
        let far = size as u16 * side as u16;
        let (west, south) =
            (shared(seed, 1, row, col + side, size), shared(seed, 2, row + side, col, size));
        nodes.extend(west.into_iter().map(|(y, z)| Node { x: far, y, z }));
        nodes.extend(south.into_iter().map(|(x, z)| Node { x, y: far, z }));
        for up in 0..2 {
            let corner = shared(seed, 3, row + up, col + side, 0).into_iter().take(1);
            nodes.extend(corner.map(|(_, z)| Node { x: far, y: size as u16 * up as u16, z }));
        }
    }
    nodes
}

pub struct Pack {
    pub header: Header,
    /// Row by row; none where there are no roads.
    pub tiles: Vec<Option<Plain>>,
    pub bytes: Vec<u8>,
}

/// Up to three rows and columns, some at the ends of the grid; empty tiles and largest ones.
pub fn pack(random: &mut Random) -> Pack {
    let (seed, size) = (random.next(), pick(&[1, 10, 1_000, 20_000, 65_535], random));
    let (rows, cols) = (1 + random.below(3), 1 + random.below(3));
    let (south, west) = (corner(random, rows, size), corner(random, cols, size));
    let counts = Header { rows: rows as u16, cols: cols as u16, total: 0, ..header(random) };
    let mut header = Header { tile: size, south, west, directory: 1_024, tiles: 0, ..counts };
    fit(&mut header);
    let (mut directory, mut data, mut tiles) = (vec![0; 512], Vec::new(), Vec::new());
    for (row, col) in (0..rows).flat_map(|row| (0..cols).map(move |col| (row, col))) {
        let inner = random.below(20) as usize;
        let mut nodes = [portals(seed, row, col, size), nodes(random, size, inner)].concat();
        nodes.truncate(if random.below(8) == 0 { 0 } else { 100 });
        nodes.sort_by_key(place);
        let len = pick(&[0, 600, 600, 2_000, 2_000, 8_192, MAX_TILE_BYTES], random);
        let key = TileKey { row: row as u16, col: col as u16 };
        let roads = Some(tile(random, key, size, nodes, len)).filter(|_| random.below(6) > 0);
        let bytes = roads.as_ref().map_or(Vec::new(), Plain::bytes);
        let entry = [header.data + data.len() as u32, bytes.len() as u32];
        directory.extend(entry.into_iter().flat_map(u32::to_le_bytes));
        data.extend(bytes);
        header.tiles += u32::from(roads.is_some());
        tiles.push(roads);
    }
    header.total = header.data + data.len() as u32;
    let bytes = [&sector(&words(&header))[..], &directory, &data].concat();
    Pack { header, tiles, bytes }
}

pub const SPOILT: u64 = 27;

/// A tile's bytes with one field at its limit or one past it, the CRC repaired but for once.
pub fn spoilt(random: &mut Random, plain: &Plain, size: u32, way: u64) -> Vec<u8> {
    let (mut tile, past) = (plain.clone(), (way % 2) as u16);
    let [nodes, edges, vertices] = [tile.nodes.len(), tile.edges.len(), tile.vertices.len()];
    let [node, edge, entry] = [nodes, edges, 2 * edges].map(|n| random.below(n as u64) as usize);
    let road = &mut tile.edges[edge];
    match way {
        0 | 1 => tile.nodes[node].x = (size as u16).saturating_add(past),
        2 | 3 => tile.nodes[node].y = (size as u16).saturating_add(past),
        4 | 5 => tile.starts[node] = 2 * edges as u16 + past,
        6 | 7 => road.from = nodes as u16 - 1 + past,
        8 | 9 => road.to = nodes as u16 - 1 + past,
        10 | 11 => road.first_vertex = vertices as u32 - u32::from(road.vertices) + u32::from(past),
        12 => road.vertices = vertices as u16,
        13 => road.first_vertex = u32::MAX,
        14 | 15 => tile.entries[entry] = 2 * (edges as u16 - 1 + past) + random.below(2) as u16,
        16 | 17 => tile.lon_um = u32::from(1 - past),
        _ => {}
    }
    // A node at the tile's far edge stands behind the others.
    if way < 4 {
        tile.sort();
    }
    let mut bytes = tile.bytes();
    match way {
        18 => bytes[random.below(3) as usize] ^= 1,
        // Counts that the length doesn't have; the last does but for bits past 32.
        19 => bytes[8] ^= 1,
        20 => bytes[10] ^= 1,
        21 => bytes[12] ^= 1,
        22 => bytes[15] ^= 128,
        23 => bytes.push(0),
        24 => bytes.truncate(bytes.len() - 1),
        25 => bytes[4 + random.below(4) as usize] ^= 1,
        _ => {}
    }
    seal(&mut bytes);
    bytes[24] ^= u8::from(way == 26);
    bytes
}
