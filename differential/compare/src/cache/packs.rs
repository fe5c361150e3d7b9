//! Packs for a cache from a seed: tiles at the limits of pages and chunks, entries and tiles that
//! are refused, and packs that end too early.
use super::script::word;
use crate::packs::{Plain, seal, sector, words};
use crate::random::{Random, pick};
use oracle::pack::{Header, TileKey};
use oracle::tile::{Edge, Node};
use oracle_cache::pack as shown;

/// A chunk, a page, the largest tile.
const CHUNK: usize = 2_048;
const PAGE: usize = 8_192;
const LARGEST: usize = 49_152;

pub struct Pack {
    pub header: shown::Header,
    pub bytes: Vec<u8>,
}

impl Pack {
    pub fn key(&self, random: &mut Random) -> u32 {
        let [row, col] = [self.header.rows, self.header.cols].map(|n| random.below(n.into()));
        (row << 16 | col) as u32
    }
}

/// A tile of exactly `len` bytes where that is even and at least 54, else of fewer; any vertices.
pub fn tile(random: &mut Random, key: TileKey, size: u32, len: usize) -> Vec<u8> {
    let room = len.saturating_sub(40);
    // Of three numbers of edges in a row one leaves room for whole vertices.
    let fits = |edges: &usize| 20 * edges <= room && (room - 20 * edges) % 6 == 0;
    let edges = (0..3).find(fits).unwrap_or(0);
    let vertices = (room - 20 * edges) / 6;
    let node = Node { x: size as u16, y: random.below(u64::from(size) + 1) as u16, z: 7 };
    let mut vertex = || {
        let bits = random.next();
        Node { x: bits as u16, y: (bits >> 16) as u16, z: (bits >> 32) as u16 }
    };
    let road = Edge {
        from: 0,
        to: 0,
        first_vertex: 0,
        vertices: vertices as u16,
        class: 1,
        flags: 0,
        group: 3,
    };
    let mut plain = Plain {
        key,
        lon_um: 111_195,
        nodes: vec![node; usize::from(len >= 40)],
        starts: Vec::new(),
        entries: Vec::new(),
        edges: vec![road; edges],
        vertices: (0..vertices).map(|_| vertex()).collect(),
    };
    plain.link();
    plain.bytes()
}

/// At a limit of chunks, pages or tiles, beside it, or anywhere.
fn len(random: &mut Random) -> usize {
    let limits = [32, CHUNK, 2 * CHUNK, PAGE, 2 * PAGE, 3 * PAGE, 4 * PAGE, 5 * PAGE, LARGEST];
    let limit = pick(&limits, random);
    let small = 32 + 2 * random.below(500) as usize;
    let any = 32 + 2 * random.below(LARGEST as u64 / 2 - 16) as usize;
    pick(&[small, small, small, limit - 2, limit, limit, (limit + 2).min(LARGEST), any], random)
}

/// A tile that isn't accepted: by its CRC, its key, its structure or its length.
fn corrupt(random: &mut Random, key: TileKey, size: u32) -> Vec<u8> {
    let len = pick(&[100, 2_048, 5_000, 8_192, 20_000], random);
    let mut bytes = tile(random, key, size, len);
    let way = random.below(6);
    match way {
        0 => bytes[24 + random.below(4) as usize] ^= 1 << random.below(8),
        1 => bytes[4 + random.below(4) as usize] ^= 1,
        2 => bytes[16..20].fill(0),
        3 => bytes[8] ^= 1,
        4 => bytes.push(0),
        _ => bytes[1] ^= 1,
    }
    if way > 0 {
        seal(&mut bytes);
    }
    bytes
}

/// What a builder of packs has put down so far.
struct Built {
    header: Header,
    directory: Vec<u8>,
    data: Vec<u8>,
}

impl Built {
    fn enter(&mut self, offset: u32, len: u32) {
        self.directory.extend([offset, len].into_iter().flat_map(u32::to_le_bytes));
    }

    fn put(&mut self, bytes: &[u8]) {
        self.enter(self.header.data + self.data.len() as u32, bytes.len() as u32);
        self.data.extend(bytes);
    }

    /// One cell of the grid; three in five of them have a tile that is accepted.
    fn cell(&mut self, random: &mut Random, key: TileKey) {
        match random.below(20) {
            0..12 => {
                let len = len(random);
                self.put(&tile(random, key, self.header.tile, len));
            }
            way => self.odd(random, key, way),
        }
    }

    /// A cell that has no tile which is accepted, in one of eight ways from 12 on.
    fn odd(&mut self, random: &mut Random, key: TileKey, way: u64) {
        let (size, data) = (self.header.tile, self.header.data);
        let end = data + self.data.len() as u32;
        match way {
            12 | 13 => self.enter(random.bits(), 0),
            14 => self.enter(data - 1 - random.below(data.into()) as u32, 100),
            15 => self.enter(self.header.total - 99, 100 + random.below(9) as u32),
            // Too large, by a byte or by much; the entry itself is a good one.
            16 => self.enter(data, pick(&[49_153, 49_154, 60_000], random)),
            17 => self.put(&corrupt(random, key, size)),
            // Of an odd length, which no tile has.
            18 => {
                let len = pick(&[33, 2_049, 8_193, 16_385, 49_151], random);
                self.put(&random.bytes(len));
            }
            // Past the end of the bytes, or over it.
            _ => self.enter(end + random.below(70_000) as u32, 5_000),
        }
    }

    fn pack(self) -> Pack {
        let bytes = [&sector(&words(&self.header))[..], &self.directory, &self.data].concat();
        let first = bytes[..512].try_into().expect("512 bytes");
        Pack { header: shown::Header::parse(first).expect("a good header"), bytes }
    }
}

/// A header of so many rows and columns, its data behind the directory. Total leaves room for
/// entries that no bytes stand behind.
fn begun(rows: u16, cols: u16, size: u32) -> Built {
    let data = 512 + 8 * u32::from(rows) * u32::from(cols);
    let header = Header {
        tile: size,
        south: -1_000,
        west: 5,
        rows,
        cols,
        directory: 512,
        data,
        total: data + 2_000_000,
        tiles: 0,
        created: 0,
        attribution_offset: 0,
        attribution_len: 0,
    };
    Built { header, directory: Vec::new(), data: Vec::new() }
}

fn keys(rows: u16, cols: u16) -> impl Iterator<Item = TileKey> {
    (0..rows).flat_map(move |row| (0..cols).map(move |col| TileKey { row, col }))
}

/// A few cells of all kinds, and one time in six a pack that ends too early.
pub fn pack(random: &mut Random) -> Pack {
    let size = pick(&[1, 1_000, 20_000, 65_535], random);
    let (rows, cols) = pick(&[(1, 1), (1, 2), (2, 2), (2, 3), (3, 3), (3, 4)], random);
    let mut built = begun(rows, cols, size);
    keys(rows, cols).for_each(|key| built.cell(random, key));
    let mut pack = built.pack();
    if random.below(6) == 0 {
        let directory = pack.header.directory as usize;
        let (end, data) = (pack.bytes.len() as u64, u64::from(pack.header.data));
        let cuts = [data, end - 1, random.below(end), data + random.below(end - data + 1)];
        pack.bytes.truncate((pick(&cuts, random) as usize).max(directory));
    }
    pack
}

/// Many keys, most of them missing, so that the ring is wrapped.
pub fn sparse(random: &mut Random) -> Pack {
    let mut built = begun(9, 10, 1_000);
    for key in keys(9, 10) {
        if random.below(12) == 0 { built.cell(random, key) } else { built.enter(0, 0) }
    }
    built.pack()
}

/// As many tiles of one page each as the largest cache has pages, and more.
pub fn many(random: &mut Random) -> Pack {
    let mut built = begun(10, 12, 1_000);
    for key in keys(10, 12) {
        let len = 32 + 2 * random.below(400) as usize;
        built.put(&tile(random, key, 1_000, len));
    }
    built.pack()
}

/// One tile, at key 0.
pub fn one(bytes: &[u8], size: u32) -> Pack {
    let mut built = begun(1, 1, size);
    built.put(bytes);
    built.pack()
}

/// Tiles of the given lengths, one column.
pub fn of(lens: &[usize]) -> Pack {
    let random = &mut Random(lens.len() as u64);
    let mut built = begun(lens.len() as u16, 1, 1_000);
    for (key, &len) in keys(lens.len() as u16, 1).zip(lens) {
        let bytes = if len == 0 { Vec::new() } else { tile(random, key, 1_000, len) };
        assert_eq!(bytes.len(), len, "a tile of the length that was asked for");
        built.put(&bytes);
    }
    built.pack()
}

/// Tiles of several sizes and cells of each way that have none, for a list that is kept.
pub fn every() -> Pack {
    let random = &mut Random(7);
    let lens = [32, 500, 2_048, 2_050, 8_192, 8_194, 16_384];
    let (rows, cols) = (3, 5);
    let mut built = begun(rows, cols, 1_000);
    for (n, key) in keys(rows, cols).enumerate() {
        match lens.get(n) {
            Some(&len) => built.put(&tile(random, key, 1_000, len)),
            None => built.odd(random, key, 12 + (n - lens.len()) as u64 % 8),
        }
    }
    built.pack()
}

/// The largest tile, and some small ones.
pub fn largest() -> Pack {
    of(&[49_152, 500, 8_194])
}

/// Row `n` of `of`.
pub fn row(n: u16) -> u32 {
    word(shown::TileKey { row: n, col: 0 })
}
