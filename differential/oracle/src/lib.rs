//! The Rust original, unchanged: target/terrain is a copy of its folder, made by `run`.
//! It needs core, libm and edition 2024 (for `if let .. && ..`), and no std.
#![no_std]

#[rustfmt::skip] // which would write into the copy
#[path = "../../target/terrain"]
mod original {
    pub mod cache; pub mod engine; pub mod geo; pub mod matcher;
    pub mod pack; pub mod predict; pub mod tile;
}
pub use original::*;
