//! Which tile a match is on.
use crate::pack::TileKey;

/// One tile's bytes: where on the grid, and which version of them.
#[derive(Clone, Copy, Debug, PartialEq, Eq)]
pub struct TileId {
    pub key: TileKey,
    pub crc: u32,
    pub edges: u16,
}
