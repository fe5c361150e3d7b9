//! The first eight reads of an engine answered in every order of bytes, misses and ends that are
//! passed, on a small pack.
use super::script::*;
use super::{Case, Writer};
use crate::matching::roads::{Grid, Network, Road};
use crate::road::networks::plain;
use crate::{Scale, tally::Tally};
use oracle_angles::cache::PAGE_BYTES;

/// Reads that are answered by an order.
const READS: u32 = 8;
/// How each of the reads is answered, by the digits of a number: bytes, missed, past the end.
const ORDERS: u64 = 3u64.pow(READS);
/// Pages of the cache; whether the header has been read; whether fixes, the loss of fixes, a reset
/// or a call on the cache come in between.
const SHAPES: u64 = 3 * 2 * 5;
const SOUTH: i32 = 47_000_000;
const WEST: i32 = 8_000_000;

/// Two tiles with a road over both; the first has two chunks, the second one.
pub fn network() -> Network {
    let grid = Grid { size: 3_000, rows: 1, cols: 2, south: SOUTH, west: WEST, lon_um: 75_834 };
    let inside = (1..400).map(|n| (500 + 6 * n, 1_500 + n % 3, 3_000 + n as u16));
    let road = |places: Vec<_>, group| Road { places, class: 3, flags: 0, group };
    let first = [(400, 1_500, 3_000)].into_iter().chain(inside).chain([(2_950, 1_500, 3_400)]);
    let second = vec![(2_950, 1_500, 3_400), (3_000, 1_500, 3_410), (5_000, 1_600, 3_500)];
    plain(grid, vec![road(first.collect(), 7), road(second, 7)])
}

/// What comes before read `n` is answered.
fn before(writer: &mut Writer, kind: u64, n: u32) {
    let point = (SOUTH + 1_500, WEST + 1_700 + n as i32);
    match (kind, n) {
        (1, 2 | 5) => writer.fix(point, 4_000 + u64::from(n)),
        (2, 3) => writer.put(LOST, &[]),
        (2, 4) => writer.fix(point, 9_000),
        (3, 4) => writer.put(RESET, &[0]),
        (4, 2 | 4 | 6) if writer.oracle.engine.header().is_some() => {
            writer.put(LOAD_FROM, &[u32::from(n == 4)])
        }
        _ => return,
    };
}

/// Steps to the next read, what comes before its answer, and the answer; whether there was a read.
fn answered(writer: &mut Writer, kind: u64, read: u32, how: u32) -> bool {
    // Steps without a read on the way to the next.
    for _ in 0..5 {
        if writer.put(STEP, &[])[0] != WORKING {
            break;
        }
    }
    before(writer, kind, read);
    let is_open = writer.oracle.open.is_some();
    if is_open {
        writer.put(DELIVER, &[how]);
    }
    is_open
}

/// None where an answer makes no difference, because no read is made: that is another order's
/// script.
fn ordered(pack: &[u8], n: u64) -> Option<Case> {
    let (order, shape) = (n % ORDERS, n / ORDERS);
    let (pages, known, kind) = (shape % 3, shape / 3 % 2, shape / 6);
    let mut alike = false;
    let arena = vec![7; pages as usize * PAGE_BYTES + 5];
    let case = Case::new(vec![pack.to_vec()], arena, |writer| {
        if known == 1 {
            writer.advance(BYTES);
        }
        writer.fix((SOUTH + 1_400, WEST + 1_000), 1_000);
        writer.fix((SOUTH + 1_500, WEST + 1_500), 2_000);
        for read in 0..READS {
            let how = (order / 3u64.pow(read) % 3) as u32;
            alike |= !answered(writer, kind, read, how) && how > 0;
        }
        writer.settle(60);
        writer.fix((SOUTH + 1_500, WEST + 2_990), 5_000);
        writer.settle(30);
    });
    (!alike).then_some(case)
}

pub fn compare(scale: &Scale) -> Tally {
    let pack = network().pack.bytes;
    // The gate takes every 31st, so that each shape is met with other orders.
    let stride = if scale.every { 1 } else { 31 };
    Tally::over("engine, orders of reads", scale, ORDERS * SHAPES / stride, |tally, _, n| {
        ordered(&pack, n * stride).iter().for_each(|case| case.count(tally, "order"));
    })
}
