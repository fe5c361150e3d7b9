//! The functions of include/terrain.h on the format and the geometry. Records and answers go by
//! value; here both are words, in the order of their fields.
use crate::ffi_terrain::{Header, Key, Point};
use crate::packs::{EdgeWords, Words};

/// The words of a result, or the number answered instead.
pub type Answer<const N: usize> = Result<[u32; N], u32>;

/// Added to the number where the rest of such an answer is not zero.
const WROTE: u32 = 1 << 31;

/// What stands in an answer, as words.
trait Field {
    fn put(self, words: &mut [u32], at: &mut usize);
}

fn put(words: &mut [u32], at: &mut usize, word: u32) {
    words[*at] = word;
    *at += 1;
}

/// Fields of one word.
macro_rules! word {
    ($($type:ty: $word:expr;)*) => {
        $(impl Field for $type {
            fn put(self, words: &mut [u32], at: &mut usize) {
                let word: fn($type) -> u32 = $word;
                put(words, at, word(self));
            }
        })*
    };
}

word! {
    u16: |n| n.into();
    u32: |n| n;
    i32: |n| n as u32;
    f32: |x| x.to_bits();
    bool: |b| b.into();
}

impl Field for u64 {
    fn put(self, words: &mut [u32], at: &mut usize) {
        put(words, at, self as u32);
        put(words, at, (self >> 32) as u32);
    }
}

impl Field for Header {
    fn put(self, words: &mut [u32], at: &mut usize) {
        self.words().into_iter().for_each(|word| put(words, at, word));
    }
}

/// Records of several fields.
macro_rules! records {
    ($($name:ident { $($field:ident: $type:ty),* })*) => {
        $(impl Field for $name {
            fn put(self, words: &mut [u32], at: &mut usize) {
                $(self.$field.put(words, at);)*
            }
        })*
    };
}

#[derive(Clone, Copy)]
#[repr(C)]
pub struct Node {
    x: u16,
    y: u16,
    z: u16,
}

#[derive(Clone, Copy)]
#[repr(C)]
pub struct Edge {
    from: u16,
    to: u16,
    first_vertex: u32,
    vertices: u16,
    class: u8,
    flags: u8,
    group: u16,
}

#[derive(Clone, Copy)]
#[repr(C)]
pub struct Metres {
    east: f32,
    north: f32,
}

records! {
    Key { row: u16, col: u16 }
    Point { lat: i32, lon: i32 }
    Node { x: u16, y: u16, z: u16 }
    Metres { east: f32, north: f32 }
}

impl Field for Edge {
    fn put(self, words: &mut [u32], at: &mut usize) {
        let [from, to, vertices] = [self.from, self.to, self.vertices].map(u32::from);
        let [class, flags] = [self.class, self.flags].map(u32::from);
        let all = [from, to, self.first_vertex, vertices, class, flags, self.group.into()];
        all.into_iter().for_each(|word| put(words, at, word));
    }
}

/// An edge of words, of which the low bits count.
fn edge_of(w: &EdgeWords) -> Edge {
    let [from, to, first_vertex, vertices, class, flags, group] = *w;
    let [from, to, vertices, group] = [from, to, vertices, group].map(|n| n as u16);
    Edge { from, to, first_vertex, vertices, class: class as u8, flags: flags as u8, group }
}

/// Answers, and how many words each has behind its number.
macro_rules! answers {
    ($($name:ident { $($field:ident: $type:ty),* } $words:literal;)*) => {
        $(#[repr(C)]
        struct $name {
            number: u32,
            $($field: $type,)*
        }

        impl $name {
            fn answer(self) -> Answer<$words> {
                let (mut words, mut at) = ([0; $words], 0);
                $(self.$field.put(&mut words, &mut at);)*
                let rest = if words == [0; $words] { 0 } else { WROTE };
                if self.number == 0 { Ok(words) } else { Err(self.number | rest) }
            }
        })*
    };
}

answers! {
    HeaderParsed { header: Header } 13;
    Keyed { key: Key } 2;
    Origin { south: i32, west: i32 } 2;
    Offset { at: u64 } 2;
    Located { offset: u32, length: u32 } 2;
    TileParsed { key: Key, nodes: u16, edges: u16, vertices: u32, lon_um: u32 } 6;
    NodeRead { node: Node } 3;
    EdgeRead { edge: Edge } 7;
    Entries { start: u32, end: u32 } 2;
    EntryRead { edge: u16, ends: bool } 2;
    Found { index: u16 } 1;
    EdgePoint { point: Point, z_dm: i32 } 3;
    MetresRead { metres: Metres } 2;
    Figure { value: f32 } 1;
    ProjectedRead { fraction: f32, distance: f32 } 2;
    Crossed { edge: u16, segment: u32 } 2;
}

#[repr(C)]
struct Range {
    number: u32,
    at: usize,
}

unsafe extern "C" {
    safe fn terrain_header_parse(sector: &[u8; 512]) -> HeaderParsed;
    safe fn terrain_header_key(header: Header, point: Point) -> Keyed;
    safe fn terrain_header_checked(header: Header, row: i64, col: i64) -> Keyed;
    safe fn terrain_header_origin(header: Header, key: Key) -> Origin;
    safe fn terrain_header_entry(header: Header, key: Key) -> Offset;
    safe fn terrain_header_locate(header: Header, entry: &[u8; 8]) -> Located;
    safe fn terrain_metres_from(point: Point, origin: Point, lon_um: u32) -> MetresRead;
    safe fn terrain_length(east: f32, north: f32) -> Figure;
    safe fn terrain_turn(from: f32, to: f32) -> Figure;
    safe fn terrain_project(p: Metres, a: Metres, b: Metres) -> ProjectedRead;
    fn terrain_pack_read(pack: *const u8, pack_len: usize, offset: u64, len: usize) -> Range;
    fn terrain_tile_parse(at: *const u8, len: usize, key: Key, size: u32) -> TileParsed;
    fn terrain_tile_node(at: *const u8, len: usize, index: u16) -> NodeRead;
    fn terrain_tile_edge(at: *const u8, len: usize, index: u16) -> EdgeRead;
    fn terrain_tile_point(at: *const u8, len: usize, edge: Edge, index: usize) -> NodeRead;
    fn terrain_tile_incident(at: *const u8, len: usize, node: u16) -> Entries;
    fn terrain_tile_entry(at: *const u8, len: usize, entry: u32) -> EntryRead;
    fn terrain_tile_node_at(at: *const u8, len: usize, x: u16, y: u16) -> Found;
    fn terrain_edge_point(
        header: Header,
        at: *const u8,
        len: usize,
        edge: Edge,
        index: usize,
    ) -> EdgePoint;
    fn terrain_crossing(
        first: Point,
        second: Point,
        header: Header,
        key: Key,
        at: *const u8,
        len: usize,
    ) -> Crossed;
}

/// Rows, columns and indexes of 16 bits: nothing wider is asked.
fn narrow(n: u32) -> u16 {
    u16::try_from(n).expect("a number of 16 bits")
}

fn key(row: u32, col: u32) -> Key {
    Key { row: narrow(row), col: narrow(col) }
}

pub fn header_parse(sector: &[u8; 512]) -> Answer<13> {
    terrain_header_parse(sector).answer()
}

pub fn header_key(header: &Words, lat: i32, lon: i32) -> Answer<2> {
    terrain_header_key(Header::of(header), Point { lat, lon }).answer()
}

pub fn header_checked(header: &Words, row: i64, col: i64) -> Answer<2> {
    terrain_header_checked(Header::of(header), row, col).answer()
}

pub fn header_origin(header: &Words, row: u32, col: u32) -> Answer<2> {
    terrain_header_origin(Header::of(header), key(row, col)).answer()
}

pub fn header_entry(header: &Words, row: u32, col: u32) -> Answer<2> {
    terrain_header_entry(Header::of(header), key(row, col)).answer()
}

pub fn header_locate(header: &Words, entry: &[u8; 8]) -> Answer<2> {
    terrain_header_locate(Header::of(header), entry).answer()
}

pub fn metres_from(lat: i32, lon: i32, from_lat: i32, from_lon: i32, lon_um: u32) -> Answer<2> {
    let origin = Point { lat: from_lat, lon: from_lon };
    terrain_metres_from(Point { lat, lon }, origin, lon_um).answer()
}

pub fn length(east: f32, north: f32) -> Answer<1> {
    terrain_length(east, north).answer()
}

pub fn turn(from: f32, to: f32) -> Answer<1> {
    terrain_turn(from, to).answer()
}

pub fn project(px: f32, py: f32, ax: f32, ay: f32, bx: f32, by: f32) -> Answer<2> {
    let [p, a, b] = [(px, py), (ax, ay), (bx, by)].map(|(east, north)| Metres { east, north });
    terrain_project(p, a, b).answer()
}

// SAFETY, of every call below: pointer and length are the slice's, and the functions only read.

pub fn tile_parse(bytes: &[u8], row: u32, col: u32, size: u32) -> Answer<6> {
    unsafe { terrain_tile_parse(bytes.as_ptr(), bytes.len(), key(row, col), size) }.answer()
}

pub fn tile_node(bytes: &[u8], index: u32) -> Answer<3> {
    unsafe { terrain_tile_node(bytes.as_ptr(), bytes.len(), narrow(index)) }.answer()
}

pub fn tile_edge(bytes: &[u8], index: u32) -> Answer<7> {
    unsafe { terrain_tile_edge(bytes.as_ptr(), bytes.len(), narrow(index)) }.answer()
}

pub fn tile_point(bytes: &[u8], edge: &EdgeWords, index: usize) -> Answer<3> {
    let edge = edge_of(edge);
    unsafe { terrain_tile_point(bytes.as_ptr(), bytes.len(), edge, index) }.answer()
}

pub fn tile_incident(bytes: &[u8], node: u32) -> Answer<2> {
    unsafe { terrain_tile_incident(bytes.as_ptr(), bytes.len(), narrow(node)) }.answer()
}

pub fn tile_entry(bytes: &[u8], entry: u32) -> Answer<2> {
    unsafe { terrain_tile_entry(bytes.as_ptr(), bytes.len(), entry) }.answer()
}

pub fn tile_node_at(bytes: &[u8], x: u32, y: u32) -> Answer<1> {
    unsafe { terrain_tile_node_at(bytes.as_ptr(), bytes.len(), narrow(x), narrow(y)) }.answer()
}

pub fn edge_point(header: &Words, bytes: &[u8], edge: &EdgeWords, index: usize) -> Answer<3> {
    let (header, edge) = (Header::of(header), edge_of(edge));
    unsafe { terrain_edge_point(header, bytes.as_ptr(), bytes.len(), edge, index) }.answer()
}

/// 0 where the bytes start at the offset, or the number.
pub fn pack_read(pack: &[u8], offset: u64, len: usize) -> u32 {
    let range = unsafe { terrain_pack_read(pack.as_ptr(), pack.len(), offset, len) };
    let start = if range.number == 0 { offset as usize } else { 0 };
    if range.at == start { range.number } else { range.number | WROTE }
}

/// An edge and a segment that meets the transect from the first point to the second.
pub fn crossing(
    first: [i32; 2],
    second: [i32; 2],
    header: &Words,
    key: [u16; 2],
    bytes: &[u8],
) -> Answer<2> {
    let [first, second] = [first, second].map(|[lat, lon]| Point { lat, lon });
    let (header, key) = (Header::of(header), Key { row: key[0], col: key[1] });
    let (at, len) = (bytes.as_ptr(), bytes.len());
    unsafe { terrain_crossing(first, second, header, key, at, len) }.answer()
}
