//! Compares libterrain.a with the Rust original.

/// A function's name, the port's answer and the Rust's; each may have a first argument of its own,
/// and common ones are names, as they stand here twice.
macro_rules! both {
    ($name:ident; $($arg:ident),*) => {
        (stringify!($name), port::$name($($arg),*), rust::$name($($arg),*))
    };
    ($name:ident, $port:expr, $rust:expr $(, $arg:ident)*) => {
        (stringify!($name), port::$name($port $(, $arg)*), rust::$name($rust $(, $arg)*))
    };
}

mod angles;
mod bench;
mod cache;
mod count;
mod crc;
mod crossing;
mod drive;
mod engine;
mod expected;
mod ffi;
mod ffi_format;
mod ffi_terrain;
mod ffi_write;
mod format;
mod geometry;
mod list;
mod list_format;
mod map;
mod matching;
mod numbers;
mod packs;
mod page;
mod panics;
mod profile;
mod random;
mod record;
mod replay;
mod road;
mod tally;
mod words;
mod write;

use std::{
    env,
    process::ExitCode,
    sync::{
        Mutex,
        atomic::{AtomicUsize, Ordering},
    },
    thread,
};
use tally::Tally;

/// How much is compared.
pub struct Scale {
    threads: u64,
    /// All words for functions of one word and all latitudes of the domain; else samples.
    every: bool,
    /// Random cases for each function.
    random: u64,
    /// Every length to this for CRC-32, and an eighth as many large inputs.
    crc_len: u64,
    /// What the numbers of headers, tiles and packs go by.
    packs: u64,
    /// Tiles that transects are laid about.
    crossings: u64,
    /// Packs that are told as text and written.
    written: u64,
    /// What the numbers of scripts go by.
    cache: u64,
    /// Networks that are ridden on.
    matches: u64,
    /// Networks whose roads are followed.
    roads: u64,
    /// What the numbers of trips of engines go by.
    engines: u64,
    /// Roads that are printed as pages.
    pages: u64,
}

const GATE: Scale = Scale {
    threads: 1,
    every: false,
    random: 10_000_000,
    crc_len: 512,
    packs: 1_000,
    crossings: 50_000,
    written: 200,
    cache: 200,
    matches: 2_000,
    roads: 1_000,
    engines: 400,
    pages: 2_012,
};
const FULL: Scale = Scale {
    threads: 2,
    every: true,
    random: 50_000_000,
    crc_len: 4_096,
    packs: 20_000,
    crossings: 1_000_000,
    written: 10_000,
    cache: 8_000,
    matches: 20_000,
    roads: 10_000,
    engines: 4_000,
    pages: 50_300,
};

/// Every part, on as many threads as there are processors where a part takes one itself: each
/// thread takes the next part that is left. The tallies come in the parts' order.
fn compare(scale: &Scale) -> Vec<Tally> {
    let parts: [fn(&Scale) -> Vec<Tally>; 15] = [
        numbers::compare,
        engine::compare,
        matching::compare,
        road::compare,
        cache::compare,
        format_and_geometry,
        crc::compare,
        angles::compare,
        crossing::compare,
        |_| drive::compare(),
        |_| profile::compare(),
        page::compare,
        write::compare,
        |_| words::compare(),
        map::compare,
    ];
    let next = AtomicUsize::new(0);
    let done = Mutex::new(parts.map(|_| Vec::new()));
    let workers = thread::available_parallelism().map_or(1, usize::from) as u64 / scale.threads;
    thread::scope(|all| {
        for _ in 0..workers.max(1) {
            all.spawn(|| {
                loop {
                    let at = next.fetch_add(1, Ordering::Relaxed);
                    let Some(part) = parts.get(at) else { break };
                    let tallies = part(scale);
                    done.lock().unwrap()[at] = tallies;
                }
            });
        }
    });
    done.into_inner().unwrap().into_iter().flatten().collect()
}

fn format_and_geometry(scale: &Scale) -> Vec<Tally> {
    format::compare(scale).into_iter().chain(geometry::compare(scale)).collect()
}

fn main() -> ExitCode {
    let words: Vec<String> = env::args().skip(1).collect();
    let tallies = match words.iter().map(String::as_str).collect::<Vec<_>>()[..] {
        [] | ["gate"] => compare(&GATE),
        ["full"] => compare(&FULL),
        ["full", "numbers"] => numbers::compare(&FULL),
        ["full", "numbers", name] => numbers::compare_one(&FULL, name),
        ["full", "format"] => {
            crc::compare(&FULL).into_iter().chain(format_and_geometry(&FULL)).collect()
        }
        ["gate", "format"] => {
            crc::compare(&GATE).into_iter().chain(format_and_geometry(&GATE)).collect()
        }
        ["gate", "angles"] => angles::compare(&GATE),
        ["gate", "write"] => write::compare(&GATE),
        ["full", "write"] => write::compare(&FULL),
        ["gate", "map"] => map::compare(&GATE),
        ["full", "map"] => map::compare(&FULL),
        ["gate", "crossing"] => crossing::compare(&GATE),
        ["full", "crossing"] => crossing::compare(&FULL),
        ["gate", "cache"] => cache::compare(&GATE),
        ["full", "cache"] => cache::compare(&FULL),
        ["gate", "matching"] => matching::compare(&GATE),
        ["full", "matching"] => matching::compare(&FULL),
        ["gate", "road"] => road::compare(&GATE),
        ["full", "road"] => road::compare(&FULL),
        ["gate", "engine"] => engine::compare(&GATE),
        ["full", "engine"] => engine::compare(&FULL),
        ["bench"] => bench::run(),
        ["list_replay", file] => record::write(file),
        ["bench", "matching"] => matching::bench::run(),
        ["bench", "road"] => road::bench::run(),
        ["bench", "engine"] => engine::bench::run(),
        ["bench", "caches"] => engine::caches::run(),
        ["bench", "write"] => write::bench::run(),
        ["panics"] => panics::print(),
        ["gate", "drive"] => drive::compare(),
        ["gate", "profile"] => profile::compare(),
        ["gate", "words"] => words::compare(),
        ["gate", "page"] => page::compare(&GATE),
        ["full", "page"] => page::compare(&FULL),
        ["drive", pack, list] => drive::print(pack, list, "0"),
        ["drive", pack, list, every] => drive::print(pack, list, every),
        ["profile"] => profile::print(None),
        ["profile", file] => profile::print(Some(file)),
        ["page", ref words @ ..] => page::print(words),
        ["sample", pack, list] => drive::write(pack, list),
        ["sample", pack, list, seed] => drive::write_any(pack, list, seed),
        _ => {
            eprintln!(
                "usage: run [gate [format | angles | crossing | cache | matching | road | engine | drive | profile | page | write | map | words] | full [numbers [NAME] | format | crossing | cache | matching | road | engine | page | write] | bench [matching | road | engine | caches | write] | panics | list_replay FILE | drive PACK DRIVE [K] | profile [FILE] | sample PACK DRIVE [SEED]"
            );
            return ExitCode::from(2);
        }
    };
    tallies.iter().for_each(Tally::print);
    ExitCode::from(u8::from(tallies.iter().any(Tally::failed)))
}
