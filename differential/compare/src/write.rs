//! The program `write_pack`, and by it both writers: a pack of the comparison's own generator is
//! told as text, field by field, and the program has to write it, byte for byte, in whatever order
//! its tiles are told. The Rust parses and drives over such packs in the other parts. Of a text that
//! makes no pack the program has to say so with the line and number that the account has. Packs of
//! some megabytes go through the library's two functions.
mod account;
pub mod bench;
mod large;
mod texts;

use crate::Scale;
use crate::engine::packs;
use crate::packs::{seal, seal_sector};
use crate::profile::printed;
use crate::random::Random;
use crate::tally::Tally;
use oracle::pack::{Header, TileKey};
use oracle::tile::Tile;

/// Changes of each text.
const CHANGES: usize = 6;

fn u16_at(bytes: &[u8], at: usize) -> u16 {
    u16::from_le_bytes(bytes[at..at + 2].try_into().expect("2 bytes"))
}

fn u32_at(bytes: &[u8], at: usize) -> u32 {
    u32::from_le_bytes(bytes[at..at + 4].try_into().expect("4 bytes"))
}

/// A tile's adjacency by node, then edge, start before end: some generators shuffle it.
fn linked(bytes: &mut [u8]) {
    let (nodes, edges) = (usize::from(u16_at(bytes, 8)), usize::from(u16_at(bytes, 10)));
    let mut lists = vec![Vec::new(); nodes];
    for n in 0..edges {
        let at = 32 + 8 * nodes + 4 * edges + 16 * n;
        lists[usize::from(u16_at(bytes, at))].push((n << 1) as u16);
        lists[usize::from(u16_at(bytes, at + 2))].push((n << 1 | 1) as u16);
    }
    let mut next = 0;
    for (n, list) in lists.iter().enumerate() {
        bytes[32 + 8 * n + 6..][..2].copy_from_slice(&(next as u16).to_le_bytes());
        for entry in list {
            bytes[32 + 8 * nodes + 2 * next..][..2].copy_from_slice(&entry.to_le_bytes());
            next += 1;
        }
    }
    seal(bytes);
}

/// The pack as the writer makes it: its tiles counted, no created time, no attribution, and zero
/// where an entry has no tile.
fn plain(pack: &[u8]) -> Vec<u8> {
    let mut bytes = pack.to_vec();
    let (directory, data) = (u32_at(pack, 36) as usize, u32_at(pack, 40) as usize);
    let mut count: u32 = 0;
    for at in (directory..data).step_by(8) {
        let (offset, len) = (u32_at(pack, at) as usize, u32_at(pack, at + 4) as usize);
        if len == 0 {
            bytes[at..at + 8].fill(0);
            continue;
        }
        count += 1;
        linked(&mut bytes[offset..offset + len]);
    }
    let sector: &mut [u8; 512] = (&mut bytes[..512]).try_into().expect("a sector");
    sector[48..52].copy_from_slice(&count.to_le_bytes());
    sector[52..508].fill(0);
    seal_sector(sector);
    bytes
}

fn grid(pack: &[u8]) -> String {
    let degrees = |at| u32_at(pack, at) as i32;
    let (rows, cols) = (u16_at(pack, 32), u16_at(pack, 34));
    format!("grid {} {} {} {rows} {cols}\n", degrees(24), degrees(28), u32_at(pack, 20))
}

/// A tile's records, in the order of its bytes.
fn tile(bytes: &[u8]) -> String {
    let counts = (u16_at(bytes, 8).into(), u16_at(bytes, 10).into(), u32_at(bytes, 12) as usize);
    let (nodes, edges, vertices): (usize, usize, usize) = counts;
    let place =
        |at| format!("{} {} {}", u16_at(bytes, at), u16_at(bytes, at + 2), u16_at(bytes, at + 4));
    let edge = |at: usize| {
        let ends = format!("{} {}", u16_at(bytes, at), u16_at(bytes, at + 2));
        let points = format!("{} {}", u32_at(bytes, at + 4), u16_at(bytes, at + 8));
        let kind = format!("{} {} {}", bytes[at + 10], bytes[at + 11], u16_at(bytes, at + 12));
        format!("edge {ends} {points} {kind}\n")
    };
    let (row, col) = (u16_at(bytes, 4), u16_at(bytes, 6));
    let mut text = format!("tile {row} {col} {}\n", u32_at(bytes, 16));
    let (at_edges, at_vertices) = (32 + 8 * nodes + 4 * edges, 32 + 8 * nodes + 20 * edges);
    (0..nodes).for_each(|n| text += &format!("node {}\n", place(32 + 8 * n)));
    (0..edges).for_each(|n| text += &edge(at_edges + 16 * n));
    (0..vertices).for_each(|n| text += &format!("vertex {}\n", place(at_vertices + 6 * n)));
    text
}

/// The tiles that the directory has, row by row; none where the Rust refuses one of them.
fn tiles(pack: &[u8]) -> Option<Vec<&[u8]>> {
    let header = Header::parse(pack[..512].try_into().expect("a sector")).ok()?;
    let keys = (0..header.rows).flat_map(|row| (0..header.cols).map(move |col| (row, col)));
    let mut all = Vec::new();
    for (row, col) in keys {
        let entry = header.entry(TileKey { row, col }) as usize;
        let (offset, len) = (u32_at(pack, entry) as usize, u32_at(pack, entry + 4) as usize);
        if len > 0 {
            let bytes = pack.get(offset..offset + len)?;
            Tile::parse(bytes, TileKey { row, col }, header.tile).ok()?;
            all.push(bytes);
        }
    }
    Some(all)
}

fn joined(grid: &str, blocks: &[String]) -> Vec<u8> {
    (grid.to_string() + &blocks.concat()).into_bytes()
}

/// One pack: as it stands, its tiles in another order, a tile told twice, a tile outside the grid.
fn one(tally: &mut Tally, random: &mut Random) {
    let pack = packs::network(random).pack.bytes;
    if tiles(&pack).is_none() {
        return;
    }
    let pack = plain(&pack);
    let tiles = tiles(&pack).expect("tiles that are linked anew");
    let (grid, mut blocks) = (grid(&pack), tiles.into_iter().map(tile).collect::<Vec<_>>());
    let written = |blocks: &[String]| printed("write_pack", &[], &joined(&grid, blocks));
    let made = written(&blocks);
    let other = made.iter().zip(&pack).position(|(a, b)| a != b);
    tally.count(made == pack, ("as it stands", other), made.len(), pack.len());
    let turn = random.below(blocks.len() as u64) as usize;
    blocks.rotate_left(turn);
    blocks.swap(0, turn);
    tally.count(written(&blocks) == pack, "another order", turn, pack.len());
    blocks.push(blocks[turn].clone());
    tally.count(written(&blocks).is_empty(), "a key twice", turn, 0);
    blocks.pop();
    blocks[0] = blocks[0].replacen("tile ", "tile 6", 1);
    tally.count(written(&blocks).is_empty(), "outside the grid", &blocks[0][..12], 0);
}

/// Changes of one pack's text.
fn messages(tally: &mut Tally, random: &mut Random) {
    let pack = packs::network(random).pack.bytes;
    let Some(all) = tiles(&pack) else { return };
    let text = grid(&pack) + &all.into_iter().map(tile).collect::<String>();
    (0..CHANGES).for_each(|_| texts::spoilt(tally, random, &text));
}

pub fn compare(scale: &Scale) -> Vec<Tally> {
    let step = |tally: &mut Tally, random: &mut Random, _| one(tally, random);
    let spoilt = |tally: &mut Tally, random: &mut Random, n| {
        if n == 0 {
            texts::fixed(tally);
        }
        messages(tally, random);
    };
    let mut told = Tally::over("write_pack, messages", scale, scale.written, spoilt);
    texts::met(&mut told);
    vec![Tally::over("write_pack", scale, scale.written, step), told, large::compare(scale)]
}
