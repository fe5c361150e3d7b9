//! Which road the rider is on.
use crate::tile::TileId;

/// The rider's place on the road graph.
#[derive(Clone, Copy, Debug, PartialEq)]
pub struct Matched {
    pub tile: TileId,
    pub edge: u16,
    /// The point index the projection lies after (segment `segment` to
    /// `segment + 1`) and how far along that segment, 0..1.
    pub segment: u16,
    pub fraction: f32,
    /// Travelling from the edge's `from` node towards `to`; `None` until a
    /// heading tells.
    pub forward: Option<bool>,
    /// Distance from the fix to the road.
    pub offset_m: f32,
    /// Elevation of the projected point, decimetres.
    pub z_dm: i32,
    pub class: u8,
    pub flags: u8,
    /// 0..100.
    pub confidence: u8,
    /// Distance ridden along this edge in direction `forward` since the match
    /// came onto the edge or its direction last reversed; 0 while the
    /// direction is unknown.
    pub ridden_m: f32,
}
