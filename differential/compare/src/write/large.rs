//! Packs of some megabytes through `terrain_write_tile` and `terrain_write_pack`: the tiles and the
//! pack have to be those of the comparison's own generator, byte for byte, and the Rust has to read
//! every record back. What lies past a result, and all of a refused output, has to stay.
use crate::Scale;
use crate::ffi_write::{self as port, Records};
use crate::packs::{self, LIMIT, Plain};
use crate::random::Random;
use crate::tally::Tally;
use oracle::pack::{Header, TileKey};
use oracle::tile::{Edge, Node, Tile};
use std::time::Instant;

/// What stands in an output before the call.
const FILL: u8 = 0xa5;
/// Of a grid that has a tile in each place, one in so many is left without.
const GAPS: u64 = 50;

/// A pack before it is bytes: the grid, and its tiles in row order.
pub struct Given {
    pub header: Header,
    pub tiles: Vec<Plain>,
}

/// Each tile's bytes, in some order, and their lengths.
pub struct Joined {
    pub tiles: Vec<u8>,
    pub lengths: Vec<u32>,
}

pub fn grid(size: u32, rows: u16, cols: u16) -> Header {
    let (south, west) = (-LIMIT, -LIMIT);
    let (directory, data, total, tiles, created) = (512, 0, 0, 0, 0);
    let (attribution_offset, attribution_len) = (0, 0);
    #[rustfmt::skip]
    return Header { tile: size, south, west, rows, cols, directory, data, total, tiles, created, attribution_offset, attribution_len };
}

/// Tiles of about `len` bytes in nearly every place of a grid.
pub fn given(random: &mut Random, rows: u16, cols: u16, len: usize) -> Given {
    let header = grid(5_000, rows, cols);
    let keys = (0..rows).flat_map(|row| (0..cols).map(move |col| TileKey { row, col }));
    let mut tile = |key| {
        let nodes = packs::nodes(random, header.tile, len / 40);
        packs::tile(random, key, header.tile, nodes, len)
    };
    let all = keys.filter(|k| u64::from(k.row) * u64::from(k.col) % GAPS != GAPS - 1);
    Given { header, tiles: all.map(&mut tile).collect() }
}

impl Given {
    /// The pack by the comparison's own account of the format.
    pub fn pack(&self) -> Vec<u8> {
        let places = usize::from(self.header.rows) * usize::from(self.header.cols);
        let (data, mut directory) = (512 + 8 * places, vec![0; 8 * places]);
        let mut tiles = Vec::new();
        for tile in &self.tiles {
            let (bytes, place) =
                (tile.bytes(), usize::from(tile.key.row) * usize::from(self.header.cols));
            let entry = [(data + tiles.len()) as u32, bytes.len() as u32].map(u32::to_le_bytes);
            directory[8 * (place + usize::from(tile.key.col))..][..8]
                .copy_from_slice(&entry.concat());
            tiles.extend(bytes);
        }
        let (total, count) = ((data + tiles.len()) as u32, self.tiles.len() as u32);
        let header = Header { data: data as u32, total, tiles: count, ..self.header };
        [&packs::sector(&packs::words(&header))[..], &directory, &tiles].concat()
    }

    /// The tiles as the port writes them, in this order.
    pub fn joined(&self, order: &[usize]) -> Joined {
        let (mut tiles, mut lengths) = (Vec::new(), Vec::new());
        for &n in order {
            let at = tiles.len();
            tiles.resize(at + 49_152, FILL);
            let records = Records::of(&self.tiles[n]);
            let len = port::tile(&records, self.header.tile, &mut tiles[at..]).expect("a tile");
            tiles.truncate(at + len);
            lengths.push(len as u32);
        }
        Joined { tiles, lengths }
    }

    pub fn rows(&self) -> Vec<usize> {
        (0..self.tiles.len()).collect()
    }

    /// Any order.
    pub fn mixed(&self, random: &mut Random) -> Vec<usize> {
        let mut order = self.rows();
        for n in (1..order.len()).rev() {
            order.swap(n, random.below(n as u64 + 1) as usize);
        }
        order
    }
}

/// One tile: written whole, with bytes behind it that stay, and with a byte too little room.
fn tile(tally: &mut Tally, plain: &Plain, size: u32) {
    let (own, records) = (plain.bytes(), Records::of(plain));
    let mut out = vec![FILL; own.len() + 3];
    let answer = port::tile(&records, size, &mut out);
    let is_same = out[..own.len()] == own && out[own.len()..] == [FILL; 3];
    tally.count(is_same && answer == Ok(own.len()), ("a tile", plain.key), answer, own.len());
    let mut short = vec![FILL; own.len() - 1];
    let answer = port::tile(&records, size, &mut short);
    let stays = short.iter().all(|&b| b == FILL);
    tally.count(stays && answer == Err(14), ("a tile's room", plain.key), answer, 14);
}

/// Every record of a pack as the Rust reads it.
fn read(tally: &mut Tally, given: &Given, bytes: &[u8]) {
    let header = Header::parse(bytes[..512].try_into().expect("a sector")).expect("a header");
    let mut next = given.tiles.iter().peekable();
    for (row, col) in (0..header.rows).flat_map(|row| (0..header.cols).map(move |col| (row, col))) {
        let (key, at) = (TileKey { row, col }, header.entry(TileKey { row, col }) as usize);
        let entry = header.locate(bytes[at..at + 8].try_into().expect("an entry"));
        let own = next.next_if(|tile| tile.key == key);
        let found =
            entry.ok().flatten().map(|(offset, len)| &bytes[offset as usize..][..len as usize]);
        let tile = found.map(|found| Tile::parse(found, key, header.tile).ok());
        let is_same = match (&tile, own) {
            (None, None) => true,
            (Some(Some(tile)), Some(own)) => records(tile, own),
            _ => false,
        };
        tally.count(is_same, ("read back", key), tile.is_some(), own.is_some());
    }
}

fn records(tile: &Tile, own: &Plain) -> bool {
    let counts = (tile.node_count(), tile.edge_count()) == (own.nodes.len(), own.edges.len());
    let node = |(n, node): (usize, &Node)| {
        let entries = tile.incident(n as u16).map(|(edge, ends)| edge << 1 | u16::from(ends));
        let to = own.starts.get(n + 1).map_or(own.entries.len(), |&start| start.into());
        tile.node(n as u16) == *node
            && entries.eq(own.entries[usize::from(own.starts[n])..to].iter().copied())
    };
    let edge = |(n, edge): (usize, &Edge)| {
        let point =
            |k: usize| tile.point(edge, k + 1) == own.vertices[edge.first_vertex as usize + k];
        tile.edge(n as u16) == *edge && (0..edge.vertices.into()).all(point)
    };
    let all = counts && tile.lon_um == own.lon_um && own.nodes.iter().enumerate().all(node);
    all && own.edges.iter().enumerate().all(edge)
}

/// A refused pack: the number, and an output that is as it was.
fn refused(tally: &mut Tally, why: &str, h: &Header, of: &Joined, room: usize, number: u32) {
    let mut out = vec![FILL; room];
    let answer = port::pack(h, &of.tiles, &of.lengths, &mut out);
    let stays = out.iter().all(|&b| b == FILL);
    tally.count(stays && answer == Err(number), why, answer, number);
    tally.end((["", "13", "14"][(number - 12) as usize], 0));
}

/// One pack in one order: the bytes, what lies past them, and what refuses it.
fn pack(tally: &mut Tally, given: &Given, own: &[u8], of: &mut Joined) {
    let mut out = vec![FILL; own.len() + 5];
    let answer = port::pack(&given.header, &of.tiles, &of.lengths, &mut out);
    let other = out.iter().zip(own).position(|(a, b)| a != b);
    let is_same = other.is_none() && out[own.len()..] == [FILL; 5];
    tally.count(is_same && answer == Ok(own.len()), ("a pack", other), answer, own.len());
    refused(tally, "a pack's room", &given.header, of, own.len() - 1, 14);
    let outside = Header { cols: given.header.cols - 1, ..given.header };
    refused(tally, "a key outside", &outside, of, own.len(), 13);
    let first = of.tiles[..of.lengths[0] as usize].to_vec();
    of.tiles.extend(first);
    of.lengths.push(of.lengths[0]);
    refused(tally, "a key twice", &given.header, of, own.len() + 49_152, 13);
}

/// A pack in row order and in another.
fn one(tally: &mut Tally, random: &mut Random, (rows, cols, len): (u16, u16, usize)) {
    let given = given(random, rows, cols, len);
    given.tiles.iter().for_each(|plain| tile(tally, plain, given.header.tile));
    let own = given.pack();
    read(tally, &given, &own);
    for order in [given.rows(), given.rows().into_iter().rev().collect(), given.mixed(random)] {
        pack(tally, &given, &own, &mut given.joined(&order));
    }
    tally.end(("megabytes", (own.len() / 1_000_000) as u32));
}

/// The largest grid, whose directory passes 32 bits: 14 at once, with tiles anywhere in it, and 13
/// where a key is given twice.
fn widest(tally: &mut Tally, random: &mut Random) {
    let header = grid(10_986, 65_535, 65_535);
    let key =
        |n: u64| TileKey { row: (n * 7_919 % 65_535) as u16, col: (n * 104_729 % 65_535) as u16 };
    let tiles = (0..10_000).map(|n| packs::tile(random, key(n), header.tile, Vec::new(), 32));
    let given = Given { header, tiles: tiles.collect() };
    let mut of = given.joined(&given.rows());
    let start = Instant::now();
    refused(tally, "the largest grid", &header, &of, 64, 14);
    tally.count(start.elapsed().as_secs() < 2, "at once", start.elapsed(), 2);
    of.tiles.extend(of.tiles[..32].to_vec());
    of.lengths.push(32);
    refused(tally, "a key twice in it", &header, &of, 64, 13);
}

/// Rows, columns and the length of a tile: 1 MB, 4 MB with more than 10,000 tiles, some 16 MB with
/// as many, and of tiles of the greatest length.
const PACKS: [(u16, u16, usize); 4] =
    [(30, 90, 384), (103, 102, 384), (1, 40_000, 384), (18, 19, 49_152)];

pub fn compare(scale: &Scale) -> Tally {
    let total = PACKS.len() as u64 + 1;
    Tally::over("write_pack, megabytes", scale, total, |tally, random, n| {
        match PACKS.get(n as usize) {
            Some(&of) => one(tally, random, of),
            None => widest(tally, random),
        }
    })
}
