//! What document 01 refuses of an engine's calls, in every state of the open fetch: deliveries that
//! don't fit (11), fixes beyond the limit (8), keys outside the grid (9), calls on the cache before
//! the header is read (12); and what calls do to an open fetch. Everything else of a refused call's
//! answer has to be as it was.
use super::script::*;
use super::{Case, Writer, orders, packs};
use crate::cache::script::{Ending, Record, record};
use crate::random::Random;
use crate::tally::Tally;
use oracle_angles::cache::PAGE_BYTES;

const LIMIT: i32 = 360_000_000;
/// The pack's two tiles, and keys outside its grid.
const FIRST: u32 = 0;
const SECOND: u32 = 1;
const OUTSIDE: [u32; 4] = [2, 1 << 16, u32::MAX, 1 << 16 | 2];

/// How far a script goes before the calls that are looked at, each by its name.
const STAGES: [(&str, usize); 11] = [
    ("fresh", 0),
    ("open header", 1),
    ("header read", 2),
    ("no fix", 3),
    ("open entry", 4),
    ("open chunk", 5),
    ("idle", 6),
    ("off the map", 7),
    ("no pack", 8),
    ("open entry of the second tile", 9),
    ("open chunk of the second tile", 10),
];

fn point(east: i32) -> (i32, i32) {
    (47_001_500, 8_000_000 + east)
}

/// Brings a fresh engine to a stage.
fn begin(writer: &mut Writer, stage: usize) {
    if stage == 8 {
        writer.put(RESET, &[1]);
        writer.settle(2);
        writer.fix(point(1_500), 500);
    }
    if stage == 0 || stage == 8 {
        return;
    }
    if stage == 1 {
        writer.put(STEP, &[]);
        return;
    }
    writer.advance(BYTES);
    if stage == 3 {
        writer.put(STEP, &[]);
    }
    if stage < 4 {
        return;
    }
    writer.fix(point(1_400), 500);
    writer.fix(point(1_700), 1_000);
    writer.put(STEP, &[]);
    match stage {
        4 => writer.put(STEP, &[]),
        5 => {
            writer.advance(BYTES);
            writer.put(STEP, &[])
        }
        9 | 10 => second(writer, stage - 9),
        _ => writer.settle(60),
    };
    if stage == 7 {
        writer.fix(point(-1), 2_000);
        writer.put(STEP, &[]);
    }
}

/// On until the road needs the second tile, with the first one ready, and so many reads of it.
fn second(writer: &mut Writer, reads: usize) -> Ending {
    for _ in 0..20 {
        if writer.last(NEED) == SECOND {
            break;
        }
        writer.advance(BYTES);
    }
    (0..reads).for_each(|_| {
        writer.advance(BYTES);
    });
    writer.put(STEP, &[])
}

/// Deliveries that are refused where no fetch is open; with one open the first three are not.
fn deliveries() -> Vec<Record> {
    [BYTES, MISSED, PAST, SHORT, UNKNOWN].map(|how| record(DELIVER, &[how])).to_vec()
}

fn fixes() -> Vec<Record> {
    let of = |lat: i32, lon: i32| record(FIX, &[lat as u32, lon as u32, 9, 1]);
    let far = [LIMIT + 1, -LIMIT - 1, i32::MAX, i32::MIN];
    let near = [of(LIMIT, LIMIT), of(-LIMIT, -LIMIT), of(LIMIT, -LIMIT), of(LIMIT, -LIMIT)];
    let far = far.into_iter().flat_map(|n| [of(n, 8_000_000), of(47_000_000, n), of(n, n)]);
    far.chain(near).collect()
}

/// Calls that leave an open fetch as it is, and one that may end it.
fn enders() -> Vec<Record> {
    let key = |kind, key| record(kind, &[key]);
    let rest = [record(LOST, &[]), record(CLEAR, &[]), record(RESET, &[0]), record(RESET, &[1])];
    let more = [record(NEW, &[2, 0x461c_4000]), record(NEW, &[0, 0]), record(STEP_FROM, &[])];
    let keys = [key(GET, FIRST), key(LOAD_FROM, FIRST), key(LOAD_FROM, SECOND)];
    keys.into_iter().chain(rest).chain(more).chain([record(8, &[]), record(99, &[])]).collect()
}

fn outside() -> Vec<Record> {
    OUTSIDE.into_iter().flat_map(|key| [GET, LOAD_FROM].map(|kind| record(kind, &[key]))).collect()
}

/// Calls on the cache only where they can be foreseen.
fn put_if(writer: &mut Writer, record: Record) {
    let direct = [GET, LOAD_FROM].contains(&record[0]);
    if !direct || writer.oracle.is_direct() {
        writer.put(record[0], &record[1..]);
    }
}

/// The deliveries that don't fit.
fn unfit(writer: &mut Writer) {
    for delivery in deliveries() {
        if writer.oracle.open.is_none() || delivery[1] > PAST {
            put_if(writer, delivery);
        }
    }
}

/// The refused calls, the fetch again, then what ends it or goes on.
fn row(stage: usize, pages: usize, ender: Record, packs: &[Vec<u8>]) -> Case {
    Case::new(packs.to_vec(), vec![5; pages * PAGE_BYTES + 1], |writer| {
        begin(writer, stage);
        unfit(writer);
        outside().into_iter().for_each(|record| put_if(writer, record));
        fixes().into_iter().take(12).for_each(|record| put_if(writer, record));
        if writer.oracle.open.is_some() {
            writer.put(STEP, &[]);
        }
        put_if(writer, ender);
        unfit(writer);
        writer.put(STEP, &[]);
        writer.put(DELIVER, &[BYTES]);
        writer.settle(12);
        fixes().into_iter().skip(12).for_each(|record| put_if(writer, record));
        writer.fix(point(1_800), 7_000);
        writer.settle(8);
    })
}

pub fn packs_of() -> Vec<Vec<u8>> {
    let own = orders::network().pack.bytes;
    let bad = packs::unreadable(&own, &mut Random(3));
    vec![own, bad]
}

/// The rows of all stages, by their names.
pub fn rows() -> Vec<(String, Case)> {
    let packs = packs_of();
    let mut out = Vec::new();
    for (name, stage) in STAGES {
        for pages in [2, 1, 0] {
            for ender in enders() {
                out.push((format!("{name}, {pages} pages"), row(stage, pages, ender, &packs)));
            }
        }
    }
    out
}

pub fn compare() -> Tally {
    let mut tally = Tally::new("engine, refusals");
    rows().iter().for_each(|(name, case)| case.count(&mut tally, name));
    for number in [8, 9, 11, 12] {
        let met = tally.ended(told([REFUSED, number, 0, 0]));
        tally.count(met, "refusal", number, "at least once");
    }
    tally
}
