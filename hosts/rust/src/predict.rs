//! The road ahead: how it is sampled, and why it ends.

pub const SAMPLE_M: f32 = 20.0;
/// Samples for 10 km, both ends included.
pub const MAX_SAMPLES: usize = 501;
/// Samples for the 200 m behind the rider, both ends included.
pub const BEHIND_SAMPLES: usize = 11;

/// Why the road ahead stops where it does.
#[derive(Clone, Copy, Debug, Default, PartialEq, Eq)]
pub enum End {
    /// The full horizon was followed.
    #[default]
    Horizon,
    /// Two ways ahead are about as likely: the road splits here.
    Fork,
    /// The road ends.
    DeadEnd,
    /// The road leaves the pack.
    MapEdge,
    /// Too many close decisions, or no travel direction yet.
    Uncertain,
    /// The road ahead touches more tiles than the cache holds.
    Memory,
}
