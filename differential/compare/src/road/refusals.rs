//! Refusals of a prediction that the Rust doesn't have, as a table from document 01: each row
//! brings a state about and says how predictions on it end. In their order: 12 for the state, 9,
//! then a match without direction, then with the start's tile looked up 12, 5, 6 and 10, and on
//! the walk 12 or 5 at any lookup. A row asserts the ending where it is not the Rust's own.
use super::networks::plain;
use super::script::{IS_ROAD, REMATCH};
use super::start::{self, *};
use super::town::{Kind, Town};
use super::{Case, Writer};
use crate::cache::script::*;
use crate::matching::refusals::{CACHES, HEADERS, KEYS_AT_CORNER, PAGES, SIZE, SOUTH, WEST};
use crate::matching::roads::{Grid, Network, Place};
use crate::matching::script::*;
use crate::random::Random;
use crate::tally::Tally;
use oracle_cache::cache::PAGE_BYTES;

/// Pages whose budget is six: a road over all four tiles.
const MANY: u32 = 18;
const MARK: u32 = 0x1234;
/// A road through all four tiles, its joints in order: it goes by the first, the third, the fourth
/// and the second of the keys.
const ROUND: [(i64, i64); 8] = [
    (500, 1_500),
    (1_500, 1_500),
    (3_000, 1_500),
    (4_500, 1_500),
    (4_500, 3_000),
    (4_500, 4_500),
    (3_000, 4_500),
    (1_500, 4_500),
];
/// The pages of its tiles, in the road's order.
const ROUND_PAGES: [u32; 4] = [0, 2, 3, 1];
/// A road through the corner that all four share.
const ACROSS: [(i64, i64); 3] = [(2_500, 2_500), (3_000, 3_000), (3_500, 3_600)];

fn place((x, y): (i64, i64)) -> Place {
    (x, y, 3_000 + (x / 100) as u16)
}

pub fn network() -> Network {
    let grid =
        Grid { size: SIZE as u32, rows: 2, cols: 2, south: SOUTH, west: WEST, lon_um: 75_834 };
    let mut town = Town { grid, random: &mut Random(3), roads: Vec::new() };
    for (group, joints) in [(1, &ROUND[..]), (2, &ACROSS[..])] {
        for pair in joints.windows(2) {
            let kind = Kind { class: 3, flags: 0, group };
            town.add(kind, vec![place(pair[0]), place(pair[1])]);
        }
    }
    plain(grid, town.roads)
}

/// The edge of the first tile that has this group and ends at such a place, and its direction
/// towards it.
fn edge_to(network: &Network, group: u16, at: (i64, i64)) -> (usize, u32) {
    let tile = &network.plains[0];
    let is = |n: u16| {
        let node = tile.nodes[usize::from(n)];
        (i64::from(node.x), i64::from(node.y)) == at
    };
    let mut edges = tile.edges.iter().enumerate();
    let (n, edge) =
        edges.find(|(_, e)| e.group == group && (is(e.to) || is(e.from))).expect("an edge there");
    (n, if is(edge.to) { 2 } else { 1 })
}

/// A start in the first tile, on the way to such a place.
fn towards(network: &Network, group: u16, at: (i64, i64)) -> Words {
    let (edge, direction) = edge_to(network, group, at);
    let mut start = Summed::new(&network.plains[0]).at(edge, 0);
    start[DIRECTION] = direction;
    start
}

struct Rows {
    network: Network,
    rows: Vec<(String, Case)>,
}

/// A refused prediction at three horizons, whatever it is given.
fn refuse(writer: &mut Writer, number: u32) {
    for horizon in [10_000.0, f32::NAN, 0.0] {
        writer.refuse(horizon, MARK, number);
    }
}

fn ends_so(writer: &mut Writer, ending: Ending) {
    assert_eq!(writer.road(10_000.0, MARK), ending);
}

fn field(writer: &mut Writer, field: usize, value: u32) {
    writer.put(SET_MATCH, &[field as u32, value]);
}

fn change(writer: &mut Writer, changes: &[(u32, &[u32])]) {
    for (kind, words) in changes {
        writer.put(*kind, words);
    }
}

impl Rows {
    /// From a cache with the four tiles ready and a match on the road's first edge, on the way to
    /// the second of them.
    fn row(&mut self, name: &str, pages: u32, write: impl FnOnce(&mut Writer, &Words)) {
        let arena = vec![0x33; pages as usize * PAGE_BYTES];
        let case = Case::new(&self.network.pack, arena, |writer| {
            for key in KEYS_AT_CORNER {
                assert_eq!(writer.matching.settle(key), ends(DONE));
            }
            let found = writer.matching.update(SOUTH + 1_500, WEST + 1_000, Some(90.0));
            assert_eq!(found[0], FOUND);
            field(writer, RIDDEN, 30.0_f32.to_bits());
            let start = writer.matching.oracle.matcher.current.expect("a match");
            write(writer, &of_match(&start).try_into().expect("13 words"));
        });
        self.rows.push((name.into(), case));
    }

    /// 12 before everything, and 14 where there is no start to give.
    fn states(&mut self) {
        for (name, changes) in CACHES.iter().chain(HEADERS) {
            self.row(name, PAGES, |writer, start| {
                ends_so(writer, ends(IS_ROAD));
                change(writer, changes);
                refuse(writer, 12);
                field(writer, DIRECTION, 0);
                writer.refuse(10_000.0, MARK, 12);
                field(writer, KEY, NO_KEY);
                writer.refuse(10_000.0, MARK, 12);
                field(writer, KEY, start[KEY]);
                field(writer, FRACTION, f32::NAN.to_bits());
                writer.refuse(10_000.0, MARK, 12);
                writer.put(SET_NO_MATCH, &[]);
                ends_so(writer, ends(NOTHING));
            });
        }
    }

    /// 9 before a match without direction, and before all that the lookup tells.
    fn keys(&mut self) {
        for key in [2 << 16, 2, NO_KEY] {
            self.row("a start's key outside the grid", PAGES, |writer, _| {
                field(writer, KEY, key);
                ends_so(writer, [REFUSED, 9, 0, 0]);
                field(writer, DIRECTION, 0);
                ends_so(writer, [REFUSED, 9, 0, 0]);
                field(writer, EDGE, 65_535);
                field(writer, DIRECTION, 1);
                ends_so(writer, [REFUSED, 9, 0, 0]);
            });
        }
    }

    /// No direction: Uncertain whatever else is given, and no lookup.
    fn directions(&mut self) {
        self.row("no direction", PAGES, |writer, start| {
            field(writer, DIRECTION, 0);
            ends_so(writer, ends(IS_ROAD));
            for (at, value) in [(EDGE, 65_535), (FRACTION, u32::MAX), (CRC, 5), (HEIGHT, 1 << 31)] {
                field(writer, at, value);
                ends_so(writer, ends(IS_ROAD));
            }
            writer.put(SET_MISSING, &[0, start[KEY]]);
            ends_so(writer, ends(IS_ROAD));
            writer.put(CLEAR, &[]);
            ends_so(writer, ends(IS_ROAD));
            start::set(writer, start);
            ends_so(writer, [NEED, start[KEY], 0, 0]);
        });
    }

    /// 5, 6 and 10 in their order; on 6 and 10 the lookup has been made.
    fn starts(&mut self) {
        let crc = |start: &Words| start[CRC] ^ 1;
        self.row("another id", PAGES, |writer, start| {
            for (at, value) in [(CRC, crc(start)), (EDGES, start[EDGES] + 1), (EDGES, 0)] {
                field(writer, at, value);
                ends_so(writer, ends(REMATCH));
                // 6 before 10.
                field(writer, EDGE, 65_535);
                ends_so(writer, ends(REMATCH));
                start::set(writer, start);
                ends_so(writer, ends(IS_ROAD));
            }
        });
        self.row("a start's tile that is missing", PAGES, |writer, start| {
            writer.put(SET_MISSING, &[63, start[KEY]]);
            ends_so(writer, ends(REMATCH));
            field(writer, EDGE, 65_535);
            ends_so(writer, ends(REMATCH));
        });
        self.row("a start's tile that is absent", PAGES, |writer, start| {
            writer.put(CLEAR, &[]);
            for (at, value) in [(EDGE, 65_535), (CRC, crc(start)), (FRACTION, u32::MAX)] {
                ends_so(writer, [NEED, start[KEY], 0, 0]);
                field(writer, at, value);
            }
            ends_so(writer, [NEED, start[KEY], 0, 0]);
        });
        self.row("starts outside their tile", PAGES, |writer, start| {
            let floats = BAD_FRACTIONS.map(|x| (FRACTION, x.to_bits()));
            let limit = 1_000_000;
            let heights = [limit + 1, -limit - 1, i32::MAX, i32::MIN].map(|z| (HEIGHT, z as u32));
            let edges = [start[EDGES], start[EDGES] + 1, 65_535].map(|n| (EDGE, n));
            let segments = [1, 2, 65_535].map(|n| (SEGMENT, n));
            let all = floats.into_iter().chain(heights).chain(edges).chain(segments);
            for (at, value) in all {
                field(writer, at, value);
                let fits = at == FRACTION && value << 1 == 0;
                ends_so(writer, if fits { ends(IS_ROAD) } else { [REFUSED, 10, 0, 0] });
                field(writer, at, start[at]);
            }
            for (at, value) in [(HEIGHT, limit as u32), (HEIGHT, -limit as u32)] {
                field(writer, at, value);
                ends_so(writer, ends(IS_ROAD));
            }
            start::set(writer, start);
            ends_so(writer, ends(IS_ROAD));
        });
    }

    /// A ready run that no longer passes, met as the start's tile and as the second to the fourth
    /// tile of the road, each of which is met as a twin: no tile is first met otherwise. The
    /// heights set by then stay, clock and ages are as they were.
    fn stale_runs(&mut self) {
        for (nth, page) in ROUND_PAGES.into_iter().enumerate() {
            let byte = page * PAGE_BYTES as u32 + 2;
            self.row("a run of the road whose byte changed", MANY, |writer, start| {
                writer.put(SET_BYTE, &[byte, 0]);
                ends_so(writer, [REFUSED, 12, 0, 0]);
                // Before the start's tile is looked up, 9 and no direction come first; then 12
                // comes before 6 and 10.
                field(writer, DIRECTION, 0);
                ends_so(writer, ends(IS_ROAD));
                field(writer, KEY, NO_KEY);
                ends_so(writer, [REFUSED, 9, 0, 0]);
                start::set(writer, start);
                field(writer, EDGE, 65_535);
                let number = if nth == 0 { 12 } else { 10 };
                ends_so(writer, [REFUSED, number, 0, 0]);
                field(writer, CRC, start[CRC] ^ 1);
                ends_so(writer, if nth == 0 { [REFUSED, 12, 0, 0] } else { ends(REMATCH) });
                start::set(writer, start);
                // A road that stops before it.
                assert_eq!(writer.road(20.0, MARK)[0], if nth == 0 { REFUSED } else { IS_ROAD });
                // Missing comes before the run.
                writer.put(SET_MISSING, &[3, KEYS_AT_CORNER[page as usize]]);
                ends_so(writer, ends(if nth == 0 { REMATCH } else { IS_ROAD }));
                writer.put(SET_MISSING, &[3, NO_KEY]);
                ends_so(writer, [REFUSED, 12, 0, 0]);
                writer.put(SET_BYTE, &[byte, 1]);
                ends_so(writer, ends(IS_ROAD));
            });
        }
        self.row("a ready run of another length", MANY, |writer, start| {
            let len = writer.matching.oracle.cache.cache.slots[2].len as u32;
            writer.put(SET_SLOT, &[2, 1, len - 1, 1, 0]);
            ends_so(writer, [REFUSED, 12, 0, 0]);
            field(writer, CRC, start[CRC] ^ 1);
            ends_so(writer, ends(REMATCH));
        });
        self.row("a header of another tile size", MANY, |writer, _| {
            writer.put(SET_HEADER, &[0, SIZE as u32 - 1]);
            ends_so(writer, [REFUSED, 12, 0, 0]);
            writer.put(SET_HEADER, &[0, SIZE as u32 + 1]);
            ends_so(writer, ends(IS_ROAD));
            writer.put(SET_HEADER, &[1, 359_000_000]);
            ends_so(writer, ends(IS_ROAD));
        });
    }

    /// At the corner the three other tiles are looked up in turn: 12, 5 or missing at each.
    fn corners(&mut self) {
        let across = towards(&self.network, 2, ACROSS[1]);
        // The twins' pages in the order of their lookups: east, north, north-east.
        let twins = [2, 1, 3];
        for (first, second) in (0..3).flat_map(|a| (0..3).map(move |b| (a, b))) {
            self.row("twins that are stale, absent and missing", MANY, |writer, _| {
                start::set(writer, &across);
                let [stale, absent] = [twins[first], twins[second]];
                writer.put(SET_BYTE, &[stale * PAGE_BYTES as u32 + 2, 0]);
                ends_so(writer, [REFUSED, 12, 0, 0]);
                if first == second {
                    writer.put(SET_MISSING, &[1, KEYS_AT_CORNER[stale as usize]]);
                    ends_so(writer, ends(IS_ROAD));
                    return;
                }
                writer.put(SET_SLOT, &[absent, NO_KEY, 0, 0, 0]);
                writer.put(SET_USED, &[absent, 0]);
                let need = [NEED, KEYS_AT_CORNER[absent as usize], 0, 0];
                ends_so(writer, if first < second { [REFUSED, 12, 0, 0] } else { need });
            });
        }
    }

    /// Records around a prediction: none of a kind above it, no match, marks of 16 bits.
    fn records(&mut self) {
        self.row("records", PAGES, |writer, start| {
            writer.put(SET_NO_MATCH, &[]);
            ends_so(writer, ends(NOTHING));
            for kind in [63, 65, 1 << 16, u32::MAX] {
                writer.put(kind, &[10_000.0_f32.to_bits(), MARK]);
            }
            start::set(writer, start);
            for mark in [0, 1, 0x7fff, 0x8000, 0xffff, 0x1_0000, u32::MAX] {
                writer.road(60.0, mark);
            }
        });
    }
}

pub fn rows() -> Vec<(String, Case)> {
    let mut rows = Rows { network: network(), rows: Vec::new() };
    rows.states();
    rows.keys();
    rows.directions();
    rows.starts();
    rows.stale_runs();
    rows.corners();
    rows.records();
    rows.rows
}

pub fn compare() -> Tally {
    let mut tally = Tally::new("road, refusals");
    rows().iter().for_each(|(name, case)| case.count(&mut tally, name));
    tally
}
