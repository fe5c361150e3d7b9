//! Refusals that the Rust doesn't have, as a table from document 01: each row brings a state about
//! and says how calls on it end. A refused call leaves everything as it is; one that isn't refused
//! ends as the Rust's.
use super::roads::{Fate, Grid, Network, Road};
use super::script::*;
use super::{Case, Writer};
use crate::cache::script::*;
use crate::packs::LIMIT;
use crate::tally::Tally;
use oracle_cache::cache::PAGE_BYTES;

pub const SIZE: i64 = 3_000;
pub const SOUTH: i32 = 47_000_000;
pub const WEST: i32 = 8_000_000;
pub const PAGES: u32 = 8;
/// Fixes beside a road: in the middle of the first tile, and near the corner that all four share.
const MIDDLE: [i32; 2] = [SOUTH + 1_510, WEST + 1_500];
const CORNER: [i32; 2] = [SOUTH + 2_900, WEST + 2_850];
/// A fix off the grid.
const OFF: [i32; 2] = [SOUTH - 1, WEST];
/// The keys that the corner's fix needs, in their order.
pub const KEYS_AT_CORNER: [u32; 4] = [0, 1 << 16, 1, 1 << 16 | 1];

/// Records that change a state: kind and words.
pub type Changes = &'static [(u32, &'static [u32])];

/// Page n holds the tile of key n in the order above.
pub const CACHES: &[(&str, Changes)] = &[
    ("a count past the slots", &[(SET_COUNT, &[97])]),
    ("the largest count", &[(SET_COUNT, &[u32::MAX])]),
    ("a count within the runs", &[(SET_COUNT, &[3])]),
    ("a place past the ring", &[(SET_PLACE, &[64])]),
    ("a run over the next one", &[(SET_SLOT, &[0, 0, 8_193, 1, 0])]),
    ("a run past the count", &[(SET_SLOT, &[7, 5, 8_193, 1, 0])]),
    ("a run that lacks a part", &[(SET_SLOT, &[5, 5, 8_193, 1, 0])]),
    ("a part without its run", &[(SET_SLOT, &[5, NO_KEY, 0, 0, 5])]),
    ("a load without its run", &[(SET_LOADING, &[5, 6, 1_000, 100, 0])]),
    (
        "a load that has all",
        &[(SET_SLOT, &[6, 5, 100, 0, 0]), (SET_LOADING, &[5, 6, 1_000, 100, 100])],
    ),
    ("an open entry of a ready tile", &[(SET_PENDING, &[2, 0])]),
    ("an open chunk without a load", &[(SET_PENDING, &[3])]),
    ("an open entry outside the grid", &[(SET_PENDING, &[2, 2 << 16])]),
    ("an arena shorter than its pages", &[(SET_LENT, &[PAGES * PAGE_BYTES as u32 - 1])]),
    ("no arena", &[(SET_LENT, &[0])]),
];

/// Fields are tile, south, west, rows, cols, directory, data, total.
pub const HEADERS: &[(&str, Changes)] = &[
    ("tile size 0", &[(SET_HEADER, &[0, 0])]),
    ("tile size 65,536", &[(SET_HEADER, &[0, 65_536])]),
    ("south past its limit", &[(SET_HEADER, &[1, -360_000_001_i32 as u32])]),
    ("east past its limit", &[(SET_HEADER, &[2, 359_994_001])]),
    ("no rows", &[(SET_HEADER, &[3, 0])]),
    ("a directory that ends early", &[(SET_HEADER, &[5, 511])]),
    ("less in total than before the data", &[(SET_HEADER, &[7, 1])]),
];

fn road(from: (i64, i64), to: (i64, i64)) -> Road {
    let places = vec![(from.0, from.1, 3_000), (to.0, to.1, 3_100)];
    Road { places, class: 3, flags: 0, group: 1 }
}

/// Four tiles, each with roads through its middle and near the corner that they share.
pub fn network() -> Network {
    let grid =
        Grid { size: SIZE as u32, rows: 2, cols: 2, south: SOUTH, west: WEST, lon_um: 75_834 };
    let mut roads = Vec::new();
    for (x, y) in [(0, 0), (0, SIZE), (SIZE, 0), (SIZE, SIZE)] {
        roads.push(road((x + 100, y + 1_500), (x + 1_500, y + 1_500)));
        roads.push(road((x + 1_500, y + 1_500), (x + 2_900, y + 1_500)));
    }
    for y in [2_880, 3_120] {
        roads.push(road((2_500, y), (3_500, y)));
    }
    Network::new(grid, roads, |_| Fate::There)
}

fn update(fix: [i32; 2], heading: Option<f32>) -> Record {
    let bits = heading.unwrap_or(0.0).to_bits();
    record(UPDATE, &[fix[0] as u32, fix[1] as u32, heading.is_some().into(), bits])
}

fn put(writer: &mut Writer, record: Record) -> Ending {
    writer.put(record[0], &record[1..])
}

fn refuse(writer: &mut Writer, records: &[Record], number: u32) {
    for &record in records {
        writer.put_ending(record, [REFUSED, number, 0, 0]);
    }
}

fn change(writer: &mut Writer, changes: &[(u32, &[u32])]) {
    for (kind, words) in changes {
        writer.put(*kind, words);
    }
}

fn nearby(fix: [i32; 2]) -> Record {
    record(NEARBY, &[fix[0] as u32, fix[1] as u32])
}

const PAST: [i32; 2] = [LIMIT + 1, WEST];

/// Updates that 12 comes before, whatever they are given.
fn updates() -> [Record; 6] {
    [
        update(MIDDLE, Some(90.0)),
        update(CORNER, None),
        update(OFF, None),
        update(PAST, None),
        update(MIDDLE, Some(f32::NAN)),
        update(PAST, Some(f32::INFINITY)),
    ]
}

struct Rows {
    network: Network,
    rows: Vec<(String, Case)>,
}

impl Rows {
    /// From a cache with the four tiles ready and a match.
    fn row(&mut self, name: &str, write: impl FnOnce(&mut Writer)) {
        let arena = vec![0x33; PAGES as usize * PAGE_BYTES];
        let case = Case::new(&self.network.pack, arena, |writer| {
            KEYS_AT_CORNER.into_iter().for_each(|key| assert_eq!(writer.settle(key), ends(DONE)));
            assert_eq!(put(writer, update(MIDDLE, Some(90.0)))[0], FOUND);
            write(writer);
        });
        self.rows.push((name.into(), case));
    }

    fn states(&mut self) {
        for (name, changes) in CACHES {
            self.row(name, |writer| {
                change(writer, changes);
                refuse(writer, &updates(), 12);
                // Calls that aren't given the cache go on.
                put(writer, record(CURRENT, &[]));
                put(writer, nearby(CORNER));
                put(writer, record(RESET, &[]));
                refuse(writer, &updates(), 12);
            });
        }
        for (name, changes) in HEADERS {
            self.row(name, |writer| {
                change(writer, changes);
                refuse(writer, &updates(), 12);
                refuse(writer, &[nearby(CORNER), nearby(PAST), nearby(OFF)], 12);
                put(writer, record(CURRENT, &[]));
                put(writer, record(RESET, &[]));
                refuse(writer, &updates(), 12);
            });
        }
    }

    /// Causes in the matcher alone; a reset mends them.
    fn matchers(&mut self) {
        let edges = 7;
        let challenger = |edge: u32, count: u32| vec![0, 99, edges, edge, count];
        let rows = [
            ("a challenger of 2", SET_CHALLENGER, challenger(0, 2)),
            ("a challenger of 255", SET_CHALLENGER, challenger(0, 255)),
            ("a challenger's edge past its count", SET_CHALLENGER, challenger(edges, 0)),
            ("a challenger's largest edge", SET_CHALLENGER, challenger(65_535, 1)),
            ("a matched edge at its tile's count", SET_MATCH, vec![3, u32::MAX]),
            ("a matched tile of no edges", SET_MATCH, vec![2, 0]),
        ];
        for (name, kind, words) in rows {
            self.row(name, |writer| {
                writer.put(kind, &words);
                refuse(writer, &updates(), 12);
                refuse(writer, &[record(CURRENT, &[])], 12);
                put(writer, nearby(MIDDLE));
                put(writer, record(RESET, &[]));
                put(writer, record(CURRENT, &[]));
                put(writer, update(MIDDLE, None));
            });
        }
        self.row("a challenger of 1 and one of 0", |writer| {
            for count in [1, 0] {
                writer.put(SET_CHALLENGER, &challenger(edges - 1, count));
                put(writer, record(CURRENT, &[]));
                put(writer, update(MIDDLE, Some(0.0)));
            }
        });
        for key in [2 << 16, 2, NO_KEY] {
            self.row("a matched key outside the grid", |writer| {
                writer.put(SET_MATCH, &[0, key]);
                refuse(writer, &updates(), 12);
                // It isn't given the header.
                put(writer, record(CURRENT, &[]));
                put(writer, nearby(MIDDLE));
                writer.put(SET_NO_MATCH, &[]);
                put(writer, update(MIDDLE, Some(270.0)));
            });
        }
        self.row("a match that fields alone make", |writer| {
            writer.put(SET_NO_MATCH, &[]);
            writer.put(SET_MATCH, &[4, 1]);
            refuse(writer, &updates(), 12);
            writer.put(SET_MATCH, &[2, 1]);
            put(writer, update(MIDDLE, Some(90.0)));
        });
    }

    fn arguments(&mut self) {
        let (past, least) = (LIMIT + 1, -LIMIT - 1);
        self.row("points past their limits", |writer| {
            for fix in [[past, 0], [least, 0], [0, past], [0, least], [i32::MAX, i32::MIN]] {
                refuse(writer, &[update(fix, Some(1.0)), update(fix, None), nearby(fix)], 8);
            }
            for fix in [[LIMIT, 0], [-LIMIT, LIMIT], [0, -LIMIT]] {
                put(writer, update(fix, None));
                put(writer, nearby(fix));
            }
        });
        self.row("headings past their limits", |writer| {
            let over = 360.00003;
            for heading in
                [f32::NAN, -f32::NAN, over, -over, f32::INFINITY, f32::NEG_INFINITY, f32::MAX]
            {
                let records = [MIDDLE, CORNER, OFF].map(|fix| update(fix, Some(heading)));
                refuse(writer, &records, 8);
            }
            for heading in [360.0, -360.0, 0.0, -0.0, f32::MIN_POSITIVE, 1e-45] {
                put(writer, update(MIDDLE, Some(heading)));
            }
            // Without the mark that there is one, no heading is looked at.
            let bits = f32::NAN.to_bits();
            writer.put(UPDATE, &[MIDDLE[0] as u32, MIDDLE[1] as u32, 0, bits]);
        });
        self.row("8 before the late 12 and before 5", |writer| {
            writer.put(SET_BYTE, &[2, 0]);
            refuse(writer, &[update(CORNER, Some(f32::NAN)), update(PAST, None)], 8);
            writer.put(CLEAR, &[]);
            refuse(writer, &[update(CORNER, Some(f32::NAN)), update(PAST, None)], 8);
            put(writer, update(CORNER, None));
        });
    }

    /// A ready run of each page that no longer passes, met as the first to fourth of the keys.
    fn stale_runs(&mut self) {
        for page in 0..4 {
            let byte = page * PAGE_BYTES as u32 + 2;
            self.row("a ready run whose byte changed", |writer| {
                writer.put(SET_BYTE, &[byte, 0]);
                refuse(writer, &[update(CORNER, Some(90.0)), update(CORNER, None)], 12);
                if page == 0 {
                    refuse(writer, &[update(MIDDLE, None)], 12);
                } else {
                    // Not looked up.
                    put(writer, update(MIDDLE, None));
                }
                put(writer, update(OFF, None));
                // Missing comes before the run.
                writer.put(SET_MISSING, &[3, KEYS_AT_CORNER[page as usize]]);
                put(writer, update(CORNER, None));
                writer.put(SET_MISSING, &[3, NO_KEY]);
                refuse(writer, &[update(CORNER, Some(90.0))], 12);
                writer.put(SET_BYTE, &[byte, 1]);
                put(writer, update(CORNER, None));
            });
        }
        self.row("a ready run of another length", |writer| {
            let len = writer.oracle.cache.cache.slots[1].len as u32;
            writer.put(SET_SLOT, &[1, 1 << 16, len - 1, 1, 0]);
            refuse(writer, &[update(CORNER, None)], 12);
            put(writer, update(MIDDLE, None));
        });
        for (absent, stale) in (0..4).flat_map(|a| (0..4).map(move |b| (a, b))) {
            if absent == stale {
                continue;
            }
            self.row("a tile that is absent and one that is stale", |writer| {
                writer.put(SET_SLOT, &[absent, NO_KEY, 0, 0, 0]);
                writer.put(SET_USED, &[absent, 0]);
                writer.put(SET_BYTE, &[stale * PAGE_BYTES as u32 + 2, 0]);
                let call = update(CORNER, Some(45.0));
                if stale < absent {
                    refuse(writer, &[call], 12);
                } else {
                    assert_eq!(put(writer, call)[..2], [NEED, KEYS_AT_CORNER[absent as usize]]);
                }
            });
        }
    }
}

pub fn rows() -> Vec<(String, Case)> {
    let mut rows = Rows { network: network(), rows: Vec::new() };
    rows.states();
    rows.matchers();
    rows.arguments();
    rows.stale_runs();
    rows.rows
}

pub fn compare() -> Tally {
    let mut tally = Tally::new("matcher, refusals");
    rows().iter().for_each(|(name, case)| case.count(&mut tally, name));
    tally
}
