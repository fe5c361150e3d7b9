//! Nanoseconds a step where the cache is full: tiles of 1, 2, 4 and 6 pages in arenas of 8 and 96
//! pages. Six pages a tile is a town, and the worst case. One table: `step_from`, of it `step` and
//! `deliver`, and what the words take, all through C, beside the unaltered Rust's step.
//!
//! The engine's own call can't be reached from outside the archive. `words` stands for what is not
//! its own: a delivery that is refused with 11, which reads the words, tests them, tests the state
//! as every call does, and writes them again. A step less `words` is the engine's own work but for
//! that test of the state. Each call runs many times from one state, which is copied back before
//! it; the copy alone is taken off. Passes take turns, and medians count, of the thread's own time.
use super::bench::{SOUTH, WEST, median, now};
use crate::count::{self, Side};
use crate::ffi_terrain::{self as port, Engine, Point, Status};
use crate::matching::roads::{Grid, Network, Road};
use crate::replay::layout::{self as at, WORDS};
use crate::road::networks::plain;
use crate::tally::Tally;
use oracle::engine::{Fix, Lookahead};
use oracle_angles::cache::PAGE_BYTES;
use std::{hint::black_box, mem::ManuallyDrop, ptr};

const PASSES: usize = 51;
const TIMES: usize = 50;
/// The side of a tile in micro-degrees, wide enough for a road of 8,000 vertices.
const SIZE: u32 = 60_000;
/// After a fix in a new tile: the match that needs it, its entry, 24 chunks, match and road.
const SETTLE: usize = 32;

/// A failure that no delivery has.
const NO_FAILURE: u32 = 7;

#[derive(Clone, Copy)]
enum Call {
    Reset,
    Step,
    /// The column, micro-degrees east within it, and the time.
    Fix(usize, i32, u64),
}

/// One row of tiles, each with a road of its own that fills so many pages.
fn tiles(pages: usize, count: usize) -> Network {
    let grid =
        Grid { size: SIZE, rows: 1, cols: count as u16, south: SOUTH, west: WEST, lon_um: 75_834 };
    let vertices = (1_333 * pages - 50) as i64;
    let apart = 56_000 / vertices;
    let road = |col: usize| {
        let west = i64::from(SIZE) * col as i64 + 2_000;
        let line = (0..vertices).map(|n| (west + apart * n, 30_000, 3_000 + (n % 40) as u16));
        Road { places: line.collect(), class: 3, flags: 0, group: 1 }
    };
    plain(grid, (0..count).map(road).collect())
}

/// Fixes in one tile after the other, each settled: the cache is full of them. The tile that is
/// left is the last one.
fn filled(held: usize) -> Vec<Call> {
    let tile = |col| {
        let fix = Call::Fix(col, 9_000, 10_000 * col as u64);
        [fix].into_iter().chain((0..SETTLE).map(|_| Call::Step))
    };
    (0..held).flat_map(tile).collect()
}

struct Cache {
    network: Network,
    pages: usize,
    each: usize,
    held: usize,
}

impl Cache {
    fn new(each: usize, pages: usize) -> Self {
        let held = pages / each;
        Self { network: tiles(each, held + 1), pages, each, held }
    }

    fn fix(call: Call) -> Option<(i32, i32, u64)> {
        match call {
            Call::Fix(col, east, at) => {
                Some((SOUTH + 30_000, WEST + (SIZE as usize * col) as i32 + east, at))
            }
            _ => None,
        }
    }

    fn port(&self, words: &mut Engine, arena: &mut [u8], call: Call) {
        let pack = &self.network.pack.bytes;
        match call {
            Call::Reset => assert_eq!(port::reset(words, arena), 0),
            Call::Step => {
                black_box(port::step_from(words, arena, pack));
            }
            Call::Fix(..) => {
                let (lat, lon, at) = Self::fix(call).expect("a fix");
                assert_eq!(port::fix(words, arena, Point { lat, lon }, at), 0);
            }
        }
    }

    fn rust(&self, engine: &mut Lookahead, call: Call) {
        match call {
            Call::Reset => engine.reset(),
            Call::Step => {
                black_box(engine.step(&mut black_box(&self.network.pack.bytes[..])));
            }
            Call::Fix(..) => {
                let (lat, lon, at_ms) = Self::fix(call).expect("a fix");
                engine.fix(Fix { lat, lon, at_ms });
            }
        }
    }

    /// The rows: what the step reads, and what is called between the full cache and it.
    fn rows(&self) -> [(&'static str, usize, Vec<Call>); 6] {
        let at = 10_000 * (self.held - 1) as u64;
        let last = self.held - 1;
        let next = Call::Fix(self.held, 9_000, at + 20_000);
        [
            ("idle", 0, vec![]),
            ("header", 512, vec![Call::Reset]),
            // The fix's time stands still, so that no road is due.
            ("match", 0, vec![Call::Fix(last, 9_300, at)]),
            ("road", 0, vec![Call::Fix(last, 9_300, at + 4_000), Call::Step]),
            ("entry", 8, vec![next, Call::Step]),
            ("chunk", 2_048, vec![next, Call::Step, Call::Step]),
        ]
    }
}

/// The calls, each from the same state, or the copies of the state alone.
fn repeated(before: &Engine, mut call: impl FnMut(&mut Engine), is_there: bool) {
    let mut words = *before;
    for _ in 0..TIMES {
        words.copy_from_slice(black_box(&before[..]));
        if is_there {
            call(&mut words);
        }
        black_box(&mut words);
    }
}

/// The same of the Rust's step, on copies of the engine.
fn repeated_rust(cache: &Cache, engine: &Lookahead, is_there: bool) {
    for _ in 0..TIMES {
        let mut copy = copied(black_box(engine));
        if is_there {
            cache.rust(&mut copy, Call::Step);
        }
        black_box(&mut copy);
    }
}

/// Nanoseconds of each of the calls in `run`, less what they cost without the call.
fn nanoseconds(mut run: impl FnMut(bool)) -> f64 {
    let mut time = |is_there| {
        let start = now();
        run(is_there);
        (now() - start) / TIMES as f64
    };
    time(true) - time(false)
}

fn timed(before: &Engine, mut call: impl FnMut(&mut Engine)) -> f64 {
    nanoseconds(|is_there| repeated(before, &mut call, is_there))
}

fn of_rust(cache: &Cache, engine: &Lookahead) -> f64 {
    nanoseconds(|is_there| repeated_rust(cache, engine, is_there))
}

fn copied<'a>(engine: &Lookahead<'a>) -> ManuallyDrop<Lookahead<'a>> {
    // SAFETY: of engine and copy, which lend the same arena, only the copy is used while it lives,
    // and an engine owns nothing that is dropped.
    ManuallyDrop::new(unsafe { ptr::read(engine) })
}

impl Cache {
    /// The full cache and the calls after it, on both sides.
    fn prepare(&self, calls: &[Call], words: &mut Engine, arena: &mut [u8], rust: &mut Lookahead) {
        port::new(words, arena, 10_000.0);
        for call in filled(self.held) {
            self.port(words, arena, call);
            self.rust(rust, call);
        }
        let used = words[at::SLOTS..at::USED].chunks(3).filter(|slot| slot[0] != 0).count();
        assert_eq!(used, self.held * self.each, "the cache is full");
        for &call in calls {
            self.port(words, arena, call);
            self.rust(rust, call);
        }
    }

    fn row(&self, name: &str, reads: usize, calls: &[Call]) -> Tally {
        let pack = &self.network.pack.bytes[..];
        let (mut words, mut arena) = ([0; WORDS], vec![0; self.pages * PAGE_BYTES]);
        let mut lent = arena.clone();
        let mut engine = Lookahead::new(&mut lent, 10_000.0);
        self.prepare(calls, &mut words, &mut arena, &mut engine);
        // Where the step fetches: the state after it, and the bytes.
        let mut after = words;
        let fetch = match port::step(&mut after, &arena) {
            Status::Fetch(offset, len) => Some(&pack[offset as usize..][..len]),
            _ => None,
        };
        assert_eq!(fetch.map_or(0, <[u8]>::len), reads, "{name} is the step that it says");
        let told = format!("{:?}", port::step_from(&mut { words }, &mut arena, pack));
        let expected = format!("{:?}", copied(&engine).step(&mut { pack }));
        let mut tally = Tally::new(&format!("{name} in {} of {}", self.pages, self.each));
        tally.count(told == expected, name, &told, &expected);
        if count::is_on() {
            self.count(name, &words, &mut arena, &engine);
            return tally;
        }
        let mut passes = vec![[0.0; 5]; PASSES];
        for pass in &mut passes {
            let mut step_from = |w: &mut Engine| port::step_from(w, &mut arena, pack);
            pass[0] = timed(&words, |w| drop(black_box(step_from(w))));
            pass[1] = timed(&words, |w| drop(black_box(port::step(w, &arena))));
            let mut deliver = |w: &mut Engine, n, bytes| port::deliver(w, &mut arena, n, bytes);
            let given = fetch.unwrap_or(&[]);
            pass[2] = timed(&after, |w| drop(black_box(deliver(w, 0, given))));
            pass[3] = timed(&words, |w| drop(black_box(deliver(w, NO_FAILURE, &[]))));
            pass[4] = of_rust(self, &engine);
        }
        let times = [0, 1, 2, 3, 4].map(|n| median(passes.iter().map(|pass| pass[n]).collect()));
        self.print(name, fetch.is_some(), times);
        tally
    }

    /// The instructions of a step, of the port and of the Rust.
    fn count(&self, name: &str, words: &Engine, arena: &mut [u8], engine: &Lookahead) {
        let pack = &self.network.pack.bytes[..];
        let name = &format!("step, {name}, {} pages, tiles of {}", self.pages, self.each);
        let mut step = |w: &mut Engine| drop(black_box(port::step_from(w, arena, pack)));
        let times = TIMES as u32;
        count::add(name, Side::Port, times, || repeated(words, &mut step, true));
        count::take_off(name, Side::Port, times, || repeated(words, &mut step, false));
        count::add(name, Side::Rust, times, || repeated_rust(self, engine, true));
        count::take_off(name, Side::Rust, times, || repeated_rust(self, engine, false));
    }

    fn print(&self, name: &str, fetches: bool, [both, step, deliver, words, rust]: [f64; 5]) {
        let deliver = if fetches { format!("{deliver:.0}") } else { "-".into() };
        print!(
            "{:>5} {:>4}  {name:<8} {both:>9.0} {step:>9.0} {deliver:>9}",
            self.pages, self.each
        );
        println!(" {words:>9.0} {rust:>9.0} {:>6.2}", both / rust);
    }

    /// `capacity` of the full cache. The Rust's is a field.
    fn capacity(&self) {
        let (mut words, mut arena) = ([0; WORDS], vec![0; self.pages * PAGE_BYTES]);
        port::new(&mut words, &arena, 10_000.0);
        for call in filled(self.held) {
            self.port(&mut words, &mut arena, call);
        }
        assert_eq!(port::cache_capacity(&words, &arena), Ok(self.pages));
        let run = |_| timed(&words, |w| assert!(port::cache_capacity(w, &arena).is_ok()));
        let time = median((0..PASSES).map(run).collect());
        println!("{:>5} {:>4}  capacity {time:>9.0}", self.pages, self.each);
    }
}

pub fn run() -> Vec<Tally> {
    if !count::is_on() {
        println!("nanoseconds a call, pages in the arena and a tile, the cache full");
        println!("arena tile  step     step_from      step   deliver     words      Rust  ratio");
    }
    let mut tallies = Vec::new();
    for (pages, each) in [8, 96].into_iter().flat_map(|pages| [1, 2, 4, 6].map(|n| (pages, n))) {
        let cache = Cache::new(each, pages);
        for (name, reads, calls) in cache.rows() {
            tallies.push(cache.row(name, reads, &calls));
        }
        if !count::is_on() {
            cache.capacity();
        }
    }
    tallies
}
