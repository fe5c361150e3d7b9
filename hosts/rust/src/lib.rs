//! The terrain look-ahead of libterrain.a for Rust, with the interface of the Rust package of the
//! same name: names, types and what each call does are that package's, so that a user of it changes
//! the line of Cargo.toml that names it. It is safe, allocates nothing and keeps no state outside
//! [`engine::Lookahead`].
//!
//! ```
//! use terrain::engine::{Fix, Lookahead, Status};
//!
//! // A slice of a pack's bytes is a source of them; [`pack::Source`] shows a card.
//! let sample = concat!(env!("CARGO_MANIFEST_DIR"), "/../../crates/drive/data/pack");
//! let pack = std::fs::read(sample).unwrap();
//! let mut card = &pack[..];
//! let mut arena = vec![0; 24 * terrain::cache::PAGE_BYTES];
//! let mut engine = Lookahead::new(&mut arena, 10_000.0);
//! engine.fix(Fix::from_e7(683_560_120, 188_274_420, 1_000));
//! while engine.step(&mut card) == Status::Working {}
//! let matched = engine.ahead().matched.unwrap();
//! assert_eq!((matched.tile.key.row, matched.tile.key.col, matched.edge), (0, 0, 0));
//! ```
#![no_std]
#![deny(missing_debug_implementations)]

pub mod engine;
mod ffi;
pub mod matcher;
pub mod pack;
pub mod predict;
pub mod tile;

/// What a host knows of the cache.
pub mod cache {
    /// The arena's unit; up to 96 of them are used.
    pub const PAGE_BYTES: usize = 8 * 1024;
}
