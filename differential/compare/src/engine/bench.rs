//! Nanoseconds a step, the port beside the unaltered Rust: idle, the header, an entry, a chunk, a
//! tile's last chunk, a match, a road, off the map; and a fix. Each call runs many times from one
//! state: the port's by `repeat_engine`, the Rust's on a copy of the engine. What repeating costs by
//! itself, a record of no kind and the copy alone, is taken off. Passes of both take turns, and
//! medians count, of the thread's own time. A step is `step_from`.
use super::script::*;
use super::{Case, joined};
use crate::cache::script::{Record, record};
use crate::count::{self, Side};
use crate::matching::roads::{Grid, Network, Road};
use crate::road::networks::{highway, plain};
use crate::{random::Random, replay, tally::Tally};
use oracle::engine::{Fix, Lookahead};
use oracle_angles::cache::PAGE_BYTES;
use std::{hint::black_box, mem::ManuallyDrop, ptr};

const PASSES: usize = 201;
const TIMES: u32 = 200;
pub const SOUTH: i32 = 47_000_000;
pub const WEST: i32 = 8_000_000;
/// No kind of record.
const NO_KIND: u32 = 8;

/// A call: one before the timed one, or that one.
#[derive(Clone, Copy)]
enum Call {
    Reset,
    Step,
    /// Micro-degrees east on the middle line, and the time.
    Fix(i32, u64),
}

/// CLOCK_THREAD_CPUTIME_ID of Linux: what others run on the machine doesn't count.
const OF_THREAD: i32 = 3;

unsafe extern "C" {
    /// Seconds and nanoseconds.
    safe fn clock_gettime(clock: i32, time: &mut [i64; 2]) -> i32;
}

pub fn now() -> f64 {
    let mut time = [0; 2];
    assert_eq!(clock_gettime(OF_THREAD, &mut time), 0);
    time[0] as f64 * 1e9 + time[1] as f64
}

/// Nanoseconds of each of the runs in `run`.
fn nanoseconds(run: impl FnOnce()) -> f64 {
    let start = now();
    run();
    (now() - start) / f64::from(TIMES)
}

pub fn median(mut times: Vec<f64>) -> f64 {
    times.sort_by(f64::total_cmp);
    times[times.len() / 2]
}

struct Bench<'n> {
    name: &'static str,
    network: &'n Network,
    pages: usize,
    /// The calls from the setup to the one that is timed.
    calls: Vec<Call>,
    timed: Call,
}

/// Two fixes, and steps until a road is published.
fn setup() -> impl Iterator<Item = Call> {
    let fixes = [Call::Fix(9_000, 0), Call::Fix(9_300, 1_000)];
    fixes.into_iter().chain((0..40).map(|_| Call::Step))
}

impl Bench<'_> {
    fn middle(&self) -> i32 {
        SOUTH + self.network.grid.size as i32 / 2
    }

    fn record(&self, call: Call) -> Record {
        match call {
            Call::Reset => record(RESET, &[0]),
            Call::Step => record(STEP_FROM, &[]),
            Call::Fix(east, at) => {
                record(FIX, &[self.middle() as u32, (WEST + east) as u32, at as u32, 0])
            }
        }
    }

    /// The setup and the calls, then a last record.
    fn case(&self, last: Record) -> Case {
        let arena = vec![0; self.pages * PAGE_BYTES];
        Case::new(vec![self.network.pack.bytes.clone()], arena, |writer| {
            for call in setup().chain(self.calls.iter().copied()) {
                let record = self.record(call);
                writer.put(record[0], &record[1..]);
            }
            writer.put(last[0], &last[1..]);
        })
    }

    fn run(&self, engine: &mut Lookahead, call: Call) {
        match call {
            Call::Reset => engine.reset(),
            Call::Step => {
                black_box(engine.step(&mut black_box(&self.network.pack.bytes[..])));
            }
            Call::Fix(east, at_ms) => {
                engine.fix(Fix { lat: self.middle(), lon: WEST + east, at_ms });
            }
        }
    }

    /// Copies of the engine, each with the timed call or without.
    fn copies(&self, engine: &Lookahead, is_there: bool) {
        for _ in 0..TIMES {
            // SAFETY: of engine and copy, which lend the same arena, only the copy is used while it
            // lives, and an engine owns nothing that is dropped.
            let mut copy = ManuallyDrop::new(unsafe { ptr::read(black_box(engine)) });
            if is_there {
                self.run(&mut copy, self.timed);
            }
            black_box(&mut copy);
        }
    }

    fn beside(&self) -> Tally {
        let (full, empty) = (self.case(self.record(self.timed)), self.case(record(NO_KIND, &[])));
        let mut tally = Tally::new(self.name);
        full.count(&mut tally, self.name);
        let (packs, mut lent) = (joined(&full.packs), full.arena.clone());
        let scripts = [&full, &empty].map(|case| &case.script);
        let mut arena = vec![0; self.pages * PAGE_BYTES];
        let mut engine = Lookahead::new(&mut arena, 10_000.0);
        let calls = setup().chain(self.calls.iter().copied());
        calls.for_each(|call| self.run(&mut engine, call));
        if count::is_on() {
            let mut run = |n: usize, times| {
                black_box(replay::repeat_engine(scripts[n], &packs, &mut lent, times));
            };
            count::add(self.name, Side::Port, TIMES, || run(0, TIMES));
            count::take_off(self.name, Side::Port, TIMES, || run(0, 0));
            count::take_off(self.name, Side::Port, TIMES, || run(1, TIMES));
            count::add(self.name, Side::Port, TIMES, || run(1, 0));
            count::add(self.name, Side::Rust, TIMES, || self.copies(&engine, true));
            count::take_off(self.name, Side::Rust, TIMES, || self.copies(&engine, false));
            return tally;
        }
        let mut port = |n: usize| {
            nanoseconds(|| {
                black_box(replay::repeat_engine(scripts[n], &packs, &mut lent, TIMES));
            })
        };
        let rust = |is_there| nanoseconds(|| self.copies(&engine, is_there));
        let mut passes = vec![[0.0; 2]; PASSES];
        for pass in &mut passes {
            *pass = [port(0) - port(1), rust(true) - rust(false)];
        }
        let [port, rust] = [0, 1].map(|n| median(passes.iter().map(|pass| pass[n]).collect()));
        let ratio = port / rust;
        println!("{:<24} port {port:>10.0} ns  Rust {rust:>10.0} ns  ratio {ratio:.2}", self.name);
        tally
    }
}

/// One tile with a road of so many vertices.
fn vertices(count: i64) -> Network {
    let grid = Grid { size: 60_000, rows: 1, cols: 1, south: SOUTH, west: WEST, lon_um: 75_834 };
    let apart = 56_000 / count;
    let line = (0..count).map(|n| (100 + apart * n, 30_000, 3_000 + (n % 40) as u16)).collect();
    plain(grid, vec![Road { places: line, class: 3, flags: 0, group: 1 }])
}

/// Reset, and so many steps: the header, the match that needs the tile, its entry, its chunks.
fn steps(count: usize) -> Vec<Call> {
    [Call::Reset].into_iter().chain((0..count).map(|_| Call::Step)).collect()
}

pub fn run() -> Vec<Tally> {
    let grid = Grid { size: 20_000, rows: 1, cols: 2, south: SOUTH, west: WEST, lon_um: 75_834 };
    let road = highway(grid, 200.0, 0, &mut Random(4));
    // A tile of three chunks and a short one in one page, and one of 24 chunks.
    let (small, large) = (vertices(1_300), vertices(8_000));
    let timed = |name, network, pages, calls, timed| {
        Bench { name, network, pages, calls, timed }.beside()
    };
    let bench = |name, network, pages, calls| timed(name, network, pages, calls, Call::Step);
    vec![
        bench("step, idle", &road, 2, vec![]),
        bench("step, header", &road, 2, vec![Call::Reset]),
        bench("step, entry", &small, 1, steps(2)),
        bench("step, chunk", &small, 1, steps(3)),
        bench("step, last of 4 chunks", &small, 1, steps(6)),
        bench("step, last of 24 chunks", &large, 6, steps(26)),
        // The fix's time stands still, so that no road is due.
        bench("step, match", &road, 2, vec![Call::Fix(9_400, 1_000)]),
        bench("step, road", &road, 2, vec![Call::Fix(9_400, 4_000), Call::Step]),
        // The grid ends 40,000 east; the second step finds nothing published any more.
        bench("step, leaving the map", &road, 2, vec![Call::Fix(60_000, 4_000)]),
        bench("step, off the map", &road, 2, vec![Call::Fix(60_000, 4_000), Call::Step]),
        timed("fix", &road, 2, vec![], Call::Fix(9_400, 4_000)),
    ]
}
