//! Nanoseconds a call on a cache, the port beside the Rust. The port runs a script and then its
//! last record many times from one state; the time of the script with that record left out is
//! taken off. The Rust's state is put back before each call.
use super::packs::{self, Pack, row};
use super::script::*;
use super::{Case, Writer};
use crate::{replay, tally::Tally};
use oracle_cache::cache::{Cache, PAGE_BYTES};
use std::{hint::black_box, time::Instant};

const PASSES: usize = 20;
const TIMES: u32 = 2_000;

fn nanoseconds(run: impl FnOnce()) -> f64 {
    let start = Instant::now();
    run();
    start.elapsed().as_nanos() as f64
}

/// The best of several passes of `script`'s last record.
fn of_port(case: &Case) -> f64 {
    let (script, arena) = (&case.script, &mut case.arena.clone());
    let mut best = |times| {
        let run = |_| {
            nanoseconds(|| {
                black_box(replay::repeat(script, &case.pack, arena, times));
            })
        };
        (0..PASSES).map(run).fold(f64::INFINITY, f64::min)
    };
    (best(TIMES) - best(0)) / f64::from(TIMES)
}

/// The best of several passes of the call.
fn of_rust(mut call: impl FnMut()) -> f64 {
    let mut run = |_| nanoseconds(|| (0..TIMES).for_each(|_| call()));
    (0..PASSES).map(&mut run).fold(f64::INFINITY, f64::min) / f64::from(TIMES)
}

/// What a script costs the port beside its call: passing the state on.
fn of_no_call(pack: &Pack) {
    let case = Case::new(pack, vec![0; PAGE_BYTES], |writer| {
        writer.put(28, &[]);
    });
    println!("{:<24} port {:>10.2} ns, in each of the next", "cache, no call", of_port(&case));
}

/// What is prepared, the call, and the same call on the Rust, whose state it may put back first.
fn beside(
    name: &str,
    pack: &Pack,
    pages: usize,
    prepare: impl Fn(&mut Writer),
    call: [u32; 2],
    rust: impl Fn(&mut Cache, &[u8]),
) -> Tally {
    let [kind, key] = call;
    let case = Case::new(pack, vec![0; pages * PAGE_BYTES], |writer| {
        prepare(writer);
        writer.put(kind, &[key]);
    });
    let mut tally = Tally::new(name);
    case.count(&mut tally, name);
    let port = of_port(&case);
    let mut best = f64::INFINITY;
    Case::new(pack, vec![0; pages * PAGE_BYTES], |writer| {
        prepare(writer);
        best = of_rust(|| rust(&mut writer.oracle.cache, &pack.bytes));
    });
    println!("{name:<24} port {port:>10.2} ns  Rust {best:>10.2} ns  ratio {:.2}", port / best);
    tally
}

pub fn run() -> Vec<Tally> {
    let full = packs::of(&[8_192; 96]);
    of_no_call(&full);
    let last = row(95);
    let fill =
        |writer: &mut Writer| (0..96).for_each(|n| assert_eq!(writer.settle(row(n)), ends(DONE)));
    let get = beside("cache get, full", &full, 96, fill, [GET, last], |cache, _| {
        black_box(cache.get(black_box(key(last))));
    });
    let large = packs::of(&[49_152]);
    let header = large.header;
    let load = |name, steps: usize| {
        let begin = move |writer: &mut Writer| {
            (0..steps).for_each(|_| assert_eq!(writer.put(STEP, &[0, 0]), ends(MORE)));
        };
        let done = (steps - 1) * 2_048;
        beside(name, &large, 96, begin, [LOAD_FROM, 0], move |cache, mut pack| {
            let slot = cache.loading.map_or(0, |l| l.slot);
            cache.slots[slot].ready = false;
            let loading = oracle_cache::cache::Loading {
                key: key(0),
                slot,
                offset: header.data,
                len: 49_152,
                done,
            };
            cache.loading = Some(black_box(loading));
            let _ = black_box(cache.load(&mut pack, &header, key(0)));
        })
    };
    vec![get, load("cache chunk", 2), load("cache last chunk, 48 KB", 24)]
}
