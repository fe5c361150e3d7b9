//! The Rust original's cache, pack and tile with the fields of the cache's state made public, so
//! that states can be shown and set up: build.rs writes the sources to target/terrain_cache.
#![no_std]

#[rustfmt::skip]
#[path = "../../target/terrain_cache"]
mod shown {
    pub mod cache; pub mod pack; pub mod tile;
}
pub use shown::*;
