//! What the port has to answer: what the Rust does, or the document's number where the Rust has
//! no such refusal, panics or doesn't end.
use crate::ffi_format::Answer;
use crate::packs::{LIMIT, Words, edge_words, place, sector, words};
use oracle::geo::{self, Point};
use oracle::pack::{Error, Header, Source, TileKey};
use oracle::tile::{Edge, Node, Tile};
use std::{cell::Cell, panic, sync::Once, thread};

pub const NONE: u32 = 256;
/// No document's number: the Rust panicked where it should have answered.
const PANICKED: u32 = 1 << 30;

thread_local!(static QUIET: Cell<bool> = const { Cell::new(false) });
static HOOK: Once = Once::new();

/// What the Rust answers, or what it panics with; only other panics are printed.
pub fn caught<R>(rust: impl FnOnce() -> R) -> thread::Result<R> {
    HOOK.call_once(|| {
        let loud = panic::take_hook();
        panic::set_hook(Box::new(move |info| {
            if !QUIET.get() {
                loud(info);
            }
        }));
    });
    QUIET.set(true);
    let answer = panic::catch_unwind(panic::AssertUnwindSafe(rust));
    QUIET.set(false);
    answer
}

fn of_rust<R>(rust: impl FnOnce() -> R) -> Result<R, u32> {
    caught(rust).or(Err(PANICKED))
}

fn refuse(number: u32, when: bool) -> Result<(), u32> {
    if when { Err(number) } else { Ok(()) }
}

fn number(error: Error) -> u32 {
    match error {
        Error::Media => 1,
        Error::Range => 2,
        Error::Unsupported => 3,
        Error::Corrupt => 4,
    }
}

/// A buffer too large for Rust to make is past the end of every pack, as is the one made instead.
pub fn pack_read(mut pack: &[u8], offset: u64, len: usize) -> u32 {
    let mut buffer = vec![0; len.min(pack.len() + 1)];
    pack.read(offset, &mut buffer).map_or_else(number, |()| 0)
}

pub fn header_parse(sector: &[u8; 512]) -> Answer<13> {
    of_rust(|| Header::parse(sector))?.map(|header| words(&header)).map_err(number)
}

/// A header given to a function, and as the port gets it.
pub struct Grid {
    pub header: Header,
    pub words: Words,
    /// Not one that `Header::parse` would refuse.
    good: bool,
}

impl Grid {
    /// With `stray` above the two 16-bit fields, where no bit counts.
    pub fn of(header: Header, stray: u32) -> Self {
        let good = Header::parse(&sector(&words(&header))).is_ok();
        let mut words = words(&header);
        words[3..5].iter_mut().for_each(|word| *word |= stray << 16);
        Self { header, words, good }
    }

    /// Of a word for a row or a column the low bits count.
    fn key(&self, row: u32, col: u32) -> Result<TileKey, u32> {
        let key = TileKey { row: row as u16, col: col as u16 };
        refuse(12, !self.good)?;
        refuse(9, key.row >= self.header.rows || key.col >= self.header.cols)?;
        Ok(key)
    }
}

fn key_words(key: Option<TileKey>) -> Answer<2> {
    key.map(|key| [key.row.into(), key.col.into()]).ok_or(NONE)
}

fn beyond(places: &[i32]) -> bool {
    places.iter().any(|place| !(-LIMIT..=LIMIT).contains(place))
}

pub fn header_key(grid: &Grid, lat: i32, lon: i32) -> Answer<2> {
    refuse(12, !grid.good)?;
    refuse(8, beyond(&[lat, lon]))?;
    key_words(of_rust(|| grid.header.key(lat, lon))?)
}

pub fn header_checked(grid: &Grid, row: i64, col: i64) -> Answer<2> {
    refuse(12, !grid.good)?;
    key_words(of_rust(|| grid.header.checked(row, col))?)
}

pub fn header_origin(grid: &Grid, row: u32, col: u32) -> Answer<2> {
    let key = grid.key(row, col)?;
    of_rust(|| grid.header.origin(key)).map(|(south, west)| [south as u32, west as u32])
}

/// The offset as its low and its high word.
pub fn header_entry(grid: &Grid, row: u32, col: u32) -> Answer<2> {
    let key = grid.key(row, col)?;
    of_rust(|| grid.header.entry(key)).map(|offset| [offset as u32, (offset >> 32) as u32])
}

pub fn header_locate(grid: &Grid, entry: &[u8; 8]) -> Answer<2> {
    refuse(12, !grid.good)?;
    let located = of_rust(|| grid.header.locate(entry))?.map_err(number)?;
    located.map(|(offset, length)| [offset, length]).ok_or(NONE)
}

/// A tile that the Rust accepted and whose nodes stand in order, with the bytes and counts that it keeps to itself.
pub struct View<'a> {
    pub bytes: &'a [u8],
    pub tile: Tile<'a>,
    pub nodes: u32,
    pub edges: u32,
    pub vertices: u32,
}

impl<'a> View<'a> {
    pub fn of(bytes: &'a [u8], row: u32, col: u32, size: u32) -> Result<Self, u32> {
        let key = TileKey { row: row as u16, col: col as u16 };
        let tile = of_rust(|| Tile::parse(bytes, key, size))?.map_err(number)?;
        let vertices = u32::from_le_bytes(bytes[12..16].try_into().expect("4 bytes"));
        let (nodes, edges) = (tile.node_count() as u32, tile.edge_count() as u32);
        // The Rust takes nodes in any order.
        let sorted =
            (0..nodes).map(|index| tile.node(index as u16)).is_sorted_by_key(|node| place(&node));
        refuse(4, !sorted)?;
        Ok(Self { bytes, tile, nodes, edges, vertices })
    }

    pub fn words(&self) -> [u32; 6] {
        let TileKey { row, col } = self.tile.key;
        [row.into(), col.into(), self.nodes, self.edges, self.vertices, self.tile.lon_um]
    }

    fn short(&self, at: u32) -> u32 {
        u16::from_le_bytes([self.bytes[at as usize], self.bytes[at as usize + 1]]).into()
    }

    /// Whether what a point number reads is there: a node or a vertex.
    fn has_point(&self, edge: &Edge, index: usize) -> bool {
        match index {
            0 => u32::from(edge.from) < self.nodes,
            _ if index > usize::from(edge.vertices) => u32::from(edge.to) < self.nodes,
            _ => u64::from(edge.first_vertex) + (index as u64 - 1) < u64::from(self.vertices),
        }
    }
}

fn node_words(node: Node) -> [u32; 3] {
    [node.x, node.y, node.z].map(u32::from)
}

pub fn tile_node(view: &View, index: u32) -> Answer<3> {
    refuse(7, index >= view.nodes)?;
    of_rust(|| view.tile.node(index as u16)).map(node_words)
}

pub fn tile_edge(view: &View, index: u32) -> Answer<7> {
    refuse(7, index >= view.edges)?;
    of_rust(|| view.tile.edge(index as u16)).map(|edge| edge_words(&edge, 0))
}

pub fn tile_point(view: &View, edge: &Edge, index: usize) -> Answer<3> {
    refuse(7, !view.has_point(edge, index))?;
    of_rust(|| view.tile.point(edge, index)).map(node_words)
}

/// The range begins where the node's field says and has as many places as the Rust hands out.
pub fn tile_incident(view: &View, node: u32) -> Answer<2> {
    refuse(7, node >= view.nodes)?;
    let start = view.short(32 + 8 * node + 6);
    of_rust(|| view.tile.incident(node as u16).count()).map(|count| [start, start + count as u32])
}

/// The Rust reads entries for a node alone; here they stand by their places.
pub fn tile_entry(view: &View, entry: u32) -> Answer<2> {
    refuse(7, entry >= 2 * view.edges)?;
    let value = view.short(32 + 8 * view.nodes + 2 * entry);
    Ok([value >> 1, value & 1])
}

pub fn tile_node_at(view: &View, x: u32, y: u32) -> Answer<1> {
    let found = of_rust(|| view.tile.node_at(x as u16, y as u16))?;
    found.map(|node| [node.into()]).ok_or(NONE)
}

pub fn edge_point(grid: &Grid, view: &View, edge: &Edge, index: usize) -> Answer<3> {
    grid.key(view.tile.key.row.into(), view.tile.key.col.into())?;
    refuse(7, !view.has_point(edge, index))?;
    let (point, z) = of_rust(|| geo::edge_point(&grid.header, &view.tile, edge, index))?;
    Ok([point.lat, point.lon, z].map(|n| n as u32))
}

pub fn metres_from(lat: i32, lon: i32, from_lat: i32, from_lon: i32, lon_um: u32) -> Answer<2> {
    refuse(8, beyond(&[lat, lon, from_lat, from_lon]))?;
    let from = Point { lat: from_lat, lon: from_lon };
    let (east, north) = of_rust(|| Point { lat, lon }.metres_from(from, lon_um))?;
    Ok([east.to_bits(), north.to_bits()])
}

fn not_finite(figures: &[f32]) -> bool {
    figures.iter().any(|figure| !figure.is_finite())
}

pub fn length(east: f32, north: f32) -> Answer<1> {
    refuse(8, not_finite(&[east, north]))?;
    Ok([geo::length(east, north).to_bits()])
}

/// Headings of more than a circle aren't handed to the Rust, which for some never ends.
pub fn turn(from: f32, to: f32) -> Answer<1> {
    refuse(8, !(from.abs() <= 360.0 && to.abs() <= 360.0))?;
    Ok([geo::turn(from, to).to_bits()])
}

pub fn project(px: f32, py: f32, ax: f32, ay: f32, bx: f32, by: f32) -> Answer<2> {
    refuse(8, not_finite(&[px, py, ax, ay, bx, by]))?;
    let (fraction, distance) = geo::project((px, py), (ax, ay), (bx, by));
    Ok([fraction.to_bits(), distance.to_bits()])
}
