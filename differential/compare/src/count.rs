//! Instructions in place of nanoseconds: `differential/count` runs a bench under callgrind, which
//! collects inside `counted` alone and writes a file after each call of it. A line tells what the
//! file has: how many calls of the row, whether its instructions are added or taken off, whose
//! calls they are, and the row.
use std::{env, fmt};

#[derive(Clone, Copy)]
pub enum Side {
    Port,
    Rust,
}

impl fmt::Display for Side {
    fn fmt(&self, f: &mut fmt::Formatter) -> fmt::Result {
        f.write_str(match self {
            Self::Port => "port",
            Self::Rust => "Rust",
        })
    }
}

/// Whether `differential/count` runs the bench.
pub fn is_on() -> bool {
    env::var_os("TERRAIN_COUNT").is_some()
}

/// What callgrind knows by its name.
#[inline(never)]
#[unsafe(no_mangle)]
pub fn counted(run: &mut dyn FnMut()) {
    run();
}

/// Calls of a row whose instructions are added.
pub fn add(name: &str, side: Side, times: u32, mut run: impl FnMut()) {
    counted(&mut run);
    println!("{times} + {side} {name}");
}

/// What repeating the calls costs by itself.
pub fn take_off(name: &str, side: Side, times: u32, mut run: impl FnMut()) {
    counted(&mut run);
    println!("{times} - {side} {name}");
}
