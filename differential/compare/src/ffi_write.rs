//! The writer among the functions of include/terrain.h.
use crate::ffi_terrain::Key;
use crate::packs::{Plain, edge_words};
use oracle::pack::Header;
use oracle::tile::Node;

#[repr(C)]
struct Written {
    number: u32,
    length: u32,
}

impl Written {
    /// How many bytes were written, or the refusal's number, and then no length.
    fn answer(self) -> Result<usize, u32> {
        match self.number {
            0 => Ok(self.length as usize),
            number => Err(if self.length == 0 { number } else { u32::MAX }),
        }
    }
}

unsafe extern "C" {
    fn terrain_write_tile(
        key: Key,
        size: u32,
        lon_um: u32,
        nodes: *const u16,
        nodes_len: usize,
        edges: *const u32,
        edges_len: usize,
        vertices: *const u16,
        vertices_len: usize,
        out: *mut u8,
        out_len: usize,
    ) -> Written;
    fn terrain_write_pack(
        south: i32,
        west: i32,
        size: u32,
        rows: u16,
        cols: u16,
        tiles: *const u8,
        tiles_len: usize,
        lengths: *const u32,
        lengths_len: usize,
        out: *mut u8,
        out_len: usize,
    ) -> Written;
}

/// A tile's records as the port takes them.
pub struct Records {
    key: Key,
    lon_um: u32,
    nodes: Vec<u16>,
    edges: Vec<u32>,
    vertices: Vec<u16>,
}

impl Records {
    pub fn of(plain: &Plain) -> Self {
        let places = |of: &[Node]| of.iter().flat_map(|n| [n.x, n.y, n.z]).collect();
        Self {
            key: Key { row: plain.key.row, col: plain.key.col },
            lon_um: plain.lon_um,
            nodes: places(&plain.nodes),
            edges: plain.edges.iter().flat_map(|e| edge_words(e, 0)).collect(),
            vertices: places(&plain.vertices),
        }
    }
}

pub fn tile(r: &Records, size: u32, out: &mut [u8]) -> Result<usize, u32> {
    let (nodes, edges, vertices) = (&r.nodes, &r.edges, &r.vertices);
    // SAFETY: pointers and counts are the slices'; only `out` is written.
    unsafe {
        terrain_write_tile(
            r.key,
            size,
            r.lon_um,
            nodes.as_ptr(),
            nodes.len(),
            edges.as_ptr(),
            edges.len(),
            vertices.as_ptr(),
            vertices.len(),
            out.as_mut_ptr(),
            out.len(),
        )
    }
    .answer()
}

/// A pack for the grid of a header.
pub fn pack(h: &Header, tiles: &[u8], lengths: &[u32], out: &mut [u8]) -> Result<usize, u32> {
    // SAFETY: as above.
    unsafe {
        terrain_write_pack(
            h.south,
            h.west,
            h.tile,
            h.rows,
            h.cols,
            tiles.as_ptr(),
            tiles.len(),
            lengths.as_ptr(),
            lengths.len(),
            out.as_mut_ptr(),
            out.len(),
        )
    }
    .answer()
}
