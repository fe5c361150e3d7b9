//! Refusals that the Rust doesn't have, and what an open fetch does, as a table from document 01:
//! each row brings a state about, and says how calls on it end. A refused call leaves state and
//! arena as they are; one that isn't refused ends as the Rust's.
use super::packs::{self, Pack, row};
use super::script::*;
use super::{Case, Writer};
use crate::tally::Tally;
use oracle_cache::cache::PAGE_BYTES;

/// Bytes of the tiles, one a row: one is ready, one under way, one missing, two absent.
const LENS: [usize; 5] = [3_000, 20_000, 0, 8_192, 500];
const READY_TILE: u32 = 0;
const LOADING_TILE: u32 = 1 << 16;
const MISSING_TILE: u32 = 2 << 16;
const ABSENT_TILE: u32 = 3 << 16;
const OTHER_TILE: u32 = 4 << 16;
/// Keys outside the grid of five rows and one column.
const OUTSIDE: [u32; 3] = [5 << 16, 1, NO_KEY];
const PAGES_LENT: u32 = 8;
/// The first byte of the data, behind five entries: where the ready tile stands in the pack.
const DATA: u32 = 512 + 8 * 5;
const LOADING_AT: u32 = DATA + 3_000;
const ENTRY: u32 = 512 + 8 * 3;

/// Records that change a state: kind and words.
type Changes = &'static [(u32, &'static [u32])];

/// Calls that are given state and arena, and those that are also given the header.
const OF_STATE: [u32; 3] = [CLEAR, CAPACITY, LOADS];
const OF_HEADER: [u32; 1] = [PAGES];
const OF_ARENA: [u32; 5] = [GET, FETCH, LOAD, STEP, LOAD_FROM];

/// Slots 0 (ready, one page) and 1 to 3 (under way) are in use, 4 to 7 empty; the count is 8.
const OVERLAPPING: &[(&str, Changes)] = &[
    ("a run over the next one", &[(SET_SLOT, &[0, READY_TILE, 8_193, 1, 0])]),
    ("a run that starts within another", &[(SET_SLOT, &[2, ABSENT_TILE, 100, 1, 0])]),
    ("a part of a run that points at another", &[(SET_SLOT, &[2, NO_KEY, 0, 0, 1])]),
    ("a part with a key", &[(SET_SLOT, &[2, ABSENT_TILE, 0, 0, 2])]),
];

const PAST_THE_COUNT: &[(&str, Changes)] = &[
    ("a run from the last page on", &[(SET_SLOT, &[7, ABSENT_TILE, 8_193, 1, 0])]),
    ("a run of 4 GB", &[(SET_SLOT, &[7, ABSENT_TILE, u32::MAX, 1, 0])]),
    ("a run behind the last page", &[(SET_SLOT, &[8, ABSENT_TILE, 100, 1, 0])]),
    ("a run at the last slot", &[(SET_SLOT, &[95, ABSENT_TILE, 100, 1, 0])]),
    ("a count within a run", &[(SET_COUNT, &[3])]),
    ("a count past the slots", &[(SET_COUNT, &[97])]),
    ("the largest count", &[(SET_COUNT, &[u32::MAX])]),
];

/// Wider than a slot's fields: the words hold them, and no state does.
const TOO_WIDE: &[(&str, Changes)] = &[
    ("an empty page with a length of 17 bits", &[(SET_SLOT, &[5, NO_KEY, 65_536, 0, 0])]),
    ("an empty page with the largest length", &[(SET_SLOT, &[95, NO_KEY, u32::MAX, 1, 0])]),
    ("a part of page 256", &[(SET_SLOT, &[4, NO_KEY, 0, 0, 257])]),
];

const LACKING: &[(&str, Changes)] = &[
    ("a run without its second page", &[(SET_SLOT, &[2, NO_KEY, 0, 0, 0])]),
    ("a run without its last page", &[(SET_SLOT, &[3, NO_KEY, 0, 0, 0])]),
    (
        "a run that is longer than its pages",
        &[
            (SET_SLOT, &[1, LOADING_TILE, 24_577, 0, 0]),
            (SET_LOADING, &[LOADING_TILE, 1, LOADING_AT, 24_577, 2_048]),
        ],
    ),
    ("a part behind its run", &[(SET_SLOT, &[4, NO_KEY, 0, 0, 2])]),
    ("a part of an empty page", &[(SET_SLOT, &[5, NO_KEY, 0, 0, 5])]),
    ("a part of a part", &[(SET_SLOT, &[4, NO_KEY, 0, 0, 4])]),
    ("a part of itself", &[(SET_SLOT, &[4, NO_KEY, 0, 0, 5])]),
    ("a part of a later page", &[(SET_SLOT, &[4, NO_KEY, 0, 0, 6])]),
    ("a part of a page past the slots", &[(SET_SLOT, &[4, NO_KEY, 0, 0, 97])]),
    ("a part of the largest page", &[(SET_SLOT, &[4, NO_KEY, 0, 0, u32::MAX >> 2])]),
];

/// Not refused: a length and a mark in a page that starts no run, which nothing reads.
const NOT_READ: &[(&str, Changes)] = &[
    ("a part with a length", &[(SET_SLOT, &[2, NO_KEY, 1, 0, 2])]),
    ("a part that is ready", &[(SET_SLOT, &[2, NO_KEY, 0, 1, 2])]),
    ("an empty page with a length", &[(SET_SLOT, &[5, NO_KEY, 8_193, 0, 0])]),
    ("an empty page that is ready", &[(SET_SLOT, &[5, NO_KEY, 0, 1, 0])]),
    ("an empty page past the count with both", &[(SET_SLOT, &[8, NO_KEY, 65_535, 1, 0])]),
    ("an empty last slot with both", &[(SET_SLOT, &[95, NO_KEY, 100, 1, 0])]),
];

const LOAD_WITHOUT_RUN: &[(&str, Changes)] = &[
    ("a load at an empty page", &[(SET_LOADING, &[LOADING_TILE, 4, LOADING_AT, 20_000, 2_048])]),
    ("a load at a part", &[(SET_LOADING, &[LOADING_TILE, 2, LOADING_AT, 20_000, 2_048])]),
    ("a load behind the pages", &[(SET_LOADING, &[LOADING_TILE, 8, LOADING_AT, 20_000, 2_048])]),
    ("a load past the slots", &[(SET_LOADING, &[LOADING_TILE, 96, LOADING_AT, 20_000, 2_048])]),
    (
        "a load at the largest slot",
        &[(SET_LOADING, &[LOADING_TILE, u32::MAX, LOADING_AT, 20_000, 2_048])],
    ),
    ("a load at a run of another key", &[(SET_LOADING, &[ABSENT_TILE, 1, DATA, 20_000, 2_048])]),
    ("a load of another length", &[(SET_LOADING, &[LOADING_TILE, 1, LOADING_AT, 19_999, 2_048])]),
    ("a load of a ready run", &[(SET_SLOT, &[1, LOADING_TILE, 20_000, 1, 0])]),
    (
        "a load whose run is gone",
        &[
            (SET_SLOT, &[1, NO_KEY, 0, 0, 0]),
            (SET_SLOT, &[2, NO_KEY, 0, 0, 0]),
            (SET_SLOT, &[3, NO_KEY, 0, 0, 0]),
        ],
    ),
];

const ALL_DONE: &[(&str, Changes)] = &[
    ("a load that has all", &[(SET_LOADING, &[LOADING_TILE, 1, LOADING_AT, 20_000, 20_000])]),
    ("a load that has more", &[(SET_LOADING, &[LOADING_TILE, 1, LOADING_AT, 20_000, 20_001])]),
    ("a load of most", &[(SET_LOADING, &[LOADING_TILE, 1, LOADING_AT, 20_000, u32::MAX])]),
    (
        "a load of nothing",
        &[(SET_LOADING, &[ABSENT_TILE, 4, DATA, 0, 0]), (SET_SLOT, &[4, ABSENT_TILE, 0, 0, 0])],
    ),
];

const PAST_THE_RING: &[(&str, Changes)] = &[
    ("the place past the ring", &[(SET_PLACE, &[64])]),
    ("a place past the ring", &[(SET_PLACE, &[65])]),
    ("the largest place", &[(SET_PLACE, &[u32::MAX])]),
];

const NOT_OPENED: &[(&str, Changes)] = &[
    ("an open entry of a ready tile", &[(SET_PENDING, &[2, READY_TILE])]),
    ("an open entry of a missing tile", &[(SET_PENDING, &[2, MISSING_TILE])]),
    ("an open entry of the tile that is loading", &[(SET_PENDING, &[2, LOADING_TILE])]),
    ("an open chunk without a load", &[(SET_LOADING, &[NO_KEY]), (SET_PENDING, &[3])]),
    (
        "an open chunk of a tile that is missing",
        &[(SET_MISSING, &[9, LOADING_TILE]), (SET_PENDING, &[3])],
    ),
    (
        "an open chunk of a tile that is ready",
        &[(SET_SLOT, &[5, LOADING_TILE, 100, 1, 0]), (SET_PENDING, &[3])],
    ),
];

/// Each breaks one rule of a header: fields are tile, south, west, rows, cols, directory, data,
/// total. The grid has five rows and a column of tiles of 1,000.
const HEADERS: &[(&str, Changes)] = &[
    ("tile size 0", &[(SET_HEADER, &[0, 0])]),
    ("tile size 65,536", &[(SET_HEADER, &[0, 65_536])]),
    ("south past its limit", &[(SET_HEADER, &[1, -360_000_001_i32 as u32])]),
    ("west past its limit", &[(SET_HEADER, &[2, -360_000_001_i32 as u32])]),
    ("north past its limit", &[(SET_HEADER, &[1, 359_995_001])]),
    ("east past its limit", &[(SET_HEADER, &[2, 359_999_001])]),
    ("no rows", &[(SET_HEADER, &[3, 0])]),
    ("no columns", &[(SET_HEADER, &[4, 65_536])]),
    ("a row more than the directory", &[(SET_HEADER, &[3, 6])]),
    ("a directory that ends early", &[(SET_HEADER, &[5, 511])]),
    ("data that begins late", &[(SET_HEADER, &[6, DATA + 1])]),
    ("less in total than before the data", &[(SET_HEADER, &[7, DATA - 1])]),
];

/// Words of a call towards a key. Of `load` they are an absent tile's entry, which fits.
fn words(kind: u32, key: u32) -> Vec<u32> {
    if kind == LOAD { vec![key, 0, ENTRY, 8] } else { vec![key] }
}

pub fn refuse(writer: &mut Writer, kinds: &[u32], key: u32, number: u32) {
    for &kind in kinds {
        let record = record(kind, &words(kind, key));
        writer.put_ending(record, [REFUSED, number, 0, 0]);
    }
}

/// Calls that end as the Rust's.
pub fn ask(writer: &mut Writer, kinds: &[u32], key: u32) {
    for &kind in kinds {
        writer.put(kind, &[key]);
    }
}

/// Deliveries that end so: key, failure, offset and length.
fn deliver(writer: &mut Writer, number: u32, deliveries: &[[u32; 4]]) {
    for words in deliveries {
        writer.put_ending(record(LOAD, words), [REFUSED, number, 0, 0]);
    }
}

/// A ready tile, a missing one, and one that a chunk has come of.
fn begin(writer: &mut Writer) {
    assert_eq!(writer.settle(READY_TILE), ends(DONE));
    assert_eq!(writer.settle(MISSING_TILE), ends(DONE));
    for _ in 0..2 {
        assert_eq!(writer.put(STEP, &[LOADING_TILE, 0]), ends(MORE));
    }
    assert_eq!(writer.put(GET, &[READY_TILE]), [READY, 0, 3_000, 0]);
}

fn change(writer: &mut Writer, changes: Changes) {
    for (kind, words) in changes {
        writer.put(*kind, words);
    }
}

struct Rows<'p> {
    pack: &'p Pack,
    rows: Vec<(String, Case)>,
}

impl Rows<'_> {
    /// A row over so many pages, from a fresh cache.
    fn fresh(&mut self, name: &str, pages: u32, write: impl FnOnce(&mut Writer)) {
        let arena = vec![0x33; pages as usize * PAGE_BYTES + 9];
        self.rows.push((name.into(), Case::new(self.pack, arena, write)));
    }

    /// A row from the state that `begin` leaves.
    fn row(&mut self, name: &str, write: impl FnOnce(&mut Writer)) {
        self.fresh(name, PAGES_LENT, |writer| {
            begin(writer);
            write(writer);
        });
    }

    /// Every call refuses such a state, whatever else is wrong with it.
    fn states(&mut self) {
        let all = [OVERLAPPING, PAST_THE_COUNT, LACKING, LOAD_WITHOUT_RUN, ALL_DONE];
        for (name, changes) in
            all.into_iter().chain([PAST_THE_RING, NOT_OPENED, TOO_WIDE]).flatten()
        {
            self.row(name, |writer| {
                change(writer, changes);
                let kinds = [&OF_ARENA[..], &OF_HEADER, &OF_STATE].concat();
                refuse(writer, &kinds, ABSENT_TILE, 12);
                refuse(writer, &OF_ARENA, OUTSIDE[0], 12);
                refuse(writer, &OF_HEADER, OUTSIDE[0], 12);
                deliver(writer, 12, &[[ABSENT_TILE, 0, 0, 7], [READY_TILE, 3, 0, 0]]);
            });
        }
        self.fresh("an open entry with no pages", 0, |writer| {
            writer.put(SET_PENDING, &[2, ABSENT_TILE]);
            refuse(writer, &OF_ARENA, ABSENT_TILE, 12);
            refuse(writer, &OF_STATE, 0, 12);
        });
    }

    /// An open entry outside the grid of the header that a call is given: what is given none ends as
    /// the Rust's.
    fn open_entries(&mut self) {
        for key in OUTSIDE {
            self.row("an open entry outside the grid", |writer| {
                writer.put(SET_PENDING, &[2, key]);
                let kinds = [&OF_ARENA[..], &OF_HEADER].concat();
                refuse(writer, &kinds, ABSENT_TILE, 12);
                refuse(writer, &kinds, key, 12);
                deliver(writer, 12, &[[ABSENT_TILE, 0, 0, 7], [key, 0, 0, 0]]);
                ask(writer, &[CAPACITY, LOADS], 0);
                writer.oracle.pending = [0, NO_KEY];
                ask(writer, &[CLEAR], 0);
                ask(writer, &[GET], ABSENT_TILE);
            });
        }
    }

    /// What is given the header refuses it; what isn't ends as the Rust's.
    fn headers(&mut self) {
        for (name, changes) in HEADERS {
            self.row(name, |writer| {
                change(writer, changes);
                refuse(writer, &OF_ARENA, ABSENT_TILE, 12);
                refuse(writer, &OF_HEADER, OUTSIDE[2], 12);
                deliver(writer, 12, &[[ABSENT_TILE, 0, 0, 7]]);
                ask(writer, &[CAPACITY, LOADS, CLEAR], 0);
            });
        }
        let limits: Changes = &[
            (SET_HEADER, &[1, -360_000_000_i32 as u32]),
            (SET_HEADER, &[2, 359_999_000]),
            (SET_HEADER, &[7, DATA]),
        ];
        self.row("a header at its limits", |writer| {
            change(writer, limits);
            ask(writer, &[GET, FETCH, PAGES], ABSENT_TILE);
            writer.put(STEP, &[ABSENT_TILE, 0]);
        });
    }

    fn arenas(&mut self) {
        let bytes = PAGES_LENT * PAGE_BYTES as u32;
        for lent in [bytes - 1, bytes - PAGE_BYTES as u32, 0] {
            self.row("an arena shorter than its pages", |writer| {
                writer.put(SET_LENT, &[lent]);
                let kinds = [&OF_ARENA[..], &OF_HEADER, &OF_STATE].concat();
                refuse(writer, &kinds, READY_TILE, 12);
                refuse(writer, &OF_ARENA, OUTSIDE[0], 12);
            });
        }
        self.row("an arena as long as its pages", |writer| {
            writer.put(SET_LENT, &[bytes]);
            writer.put(GET, &[READY_TILE]);
            writer.settle(LOADING_TILE);
            writer.put(GET, &[LOADING_TILE]);
        });
    }

    fn keys(&mut self) {
        self.row("a key outside the grid", |writer| {
            for key in OUTSIDE {
                refuse(writer, &[GET, FETCH, STEP, LOAD_FROM, PAGES], key, 9);
                deliver(writer, 9, &[[key, 0, 0, 0]]);
                deliver(writer, 11, &[[key, 0, ENTRY, 8], [key, 1, 0, 0], [key, 2, 0, 0]]);
            }
        });
        self.row("a ready run outside the grid that isn't a tile", |writer| {
            writer.put(SET_SLOT, &[4, OUTSIDE[0], 100, 1, 0]);
            refuse(writer, &[GET, FETCH, STEP, LOAD_FROM, PAGES], OUTSIDE[0], 9);
            deliver(writer, 9, &[[OUTSIDE[0], 0, 0, 0]]);
        });
    }

    fn deliveries(&mut self) {
        self.row("a delivery that no read fits", |writer| {
            let lengths = [0, 7, 9, 16].map(|len| [ABSENT_TILE, 0, ENTRY, len]);
            deliver(writer, 11, &lengths);
            let lengths =
                [0, 8, 2_047, 2_049].map(|len| [LOADING_TILE, 0, LOADING_AT + 2_048, len]);
            deliver(writer, 11, &lengths);
            for failure in [3, 256, u32::MAX] {
                let with = |key, len| [key, failure, ENTRY, len];
                deliver(writer, 11, &[with(ABSENT_TILE, 8), with(LOADING_TILE, 0)]);
                deliver(writer, 11, &[with(READY_TILE, 0), with(MISSING_TILE, 0)]);
            }
        });
        self.row("a delivery where no read is made", |writer| {
            for key in [READY_TILE, MISSING_TILE] {
                deliver(writer, 11, &[[key, 0, DATA, 1], [key, 0, ENTRY, 8]]);
                deliver(writer, 11, &[[key, 1, 0, 0], [key, 2, 0, 0]]);
                writer.put(LOAD, &[key, 0, 0, 0]);
            }
        });
        self.row("another length for the last chunk", |writer| {
            (0..8).for_each(|_| assert_eq!(writer.put(STEP, &[LOADING_TILE, 0]), ends(MORE)));
            let at = LOADING_AT + 9 * 2_048;
            deliver(writer, 11, &[[LOADING_TILE, 0, at, 2_048], [LOADING_TILE, 0, at, 1_567]]);
            writer.put(LOAD, &[LOADING_TILE, 0, at, 1_568]);
            writer.put(GET, &[LOADING_TILE]);
        });
        self.fresh("a delivery with no pages", 0, |writer| {
            deliver(writer, 11, &[[ABSENT_TILE, 0, ENTRY, 8], [ABSENT_TILE, 1, 0, 0]]);
            writer.put(LOAD, &[ABSENT_TILE, 0, 0, 0]);
            writer.put(GET, &[ABSENT_TILE]);
        });
        self.row("a failure with bytes", |writer| {
            writer.put(LOAD, &[LOADING_TILE, 1, LOADING_AT, 5]);
            writer.put(LOAD, &[ABSENT_TILE, 2, ENTRY, 8]);
        });
    }

    /// A ready run that no longer passes is refused where it is looked up, after 11 and 9.
    fn stale(&mut self, name: &str, changes: Changes, back: Changes) {
        self.row(name, |writer| {
            change(writer, changes);
            deliver(writer, 11, &[[READY_TILE, 0, ENTRY, 8], [READY_TILE, 1, 0, 0]]);
            deliver(writer, 12, &[[READY_TILE, 0, 0, 0]]);
            refuse(writer, &[GET, FETCH, STEP, LOAD_FROM], READY_TILE, 12);
            refuse(writer, &[GET], OUTSIDE[0], 9);
            // What doesn't look it up goes on.
            ask(writer, &[PAGES, CAPACITY, LOADS], READY_TILE);
            ask(writer, &[GET], MISSING_TILE);
            ask(writer, &[GET], ABSENT_TILE);
            writer.put(STEP, &[LOADING_TILE, 0]);
            refuse(writer, &[GET], READY_TILE, 12);
            change(writer, back);
            ask(writer, &[GET, FETCH, STEP], READY_TILE);
        });
    }

    fn stale_runs(&mut self) {
        // The tile's bytes 2 and 3 are its version, 1, and no field.
        self.stale(
            "a ready run whose byte changed",
            &[(SET_BYTE, &[2, 0])],
            &[(SET_BYTE, &[2, 1])],
        );
        self.stale(
            "a ready run of another length",
            &[(SET_SLOT, &[0, READY_TILE, 2_999, 1, 0])],
            &[(SET_SLOT, &[0, READY_TILE, 3_000, 1, 0])],
        );
        self.stale(
            "a ready run past the tile size",
            &[(SET_HEADER, &[0, 1])],
            &[(SET_HEADER, &[0, 1_000])],
        );
        self.row("a ready run of another key", |writer| {
            writer.put(SET_SLOT, &[0, OTHER_TILE, 3_000, 1, 0]);
            refuse(writer, &[GET, FETCH, STEP, LOAD_FROM], OTHER_TILE, 12);
            writer.put(GET, &[READY_TILE]);
        });
        self.row("a byte behind a ready tile changed", |writer| {
            writer.put(SET_BYTE, &[3_000, 0]);
            ask(writer, &[GET, FETCH, STEP], READY_TILE);
        });
        self.row("a stale run of a missing tile", |writer| {
            change(writer, &[(SET_BYTE, &[2, 0]), (SET_MISSING, &[9, READY_TILE])]);
            ask(writer, &[GET, FETCH, STEP], READY_TILE);
        });
        self.row("two ready runs, the lower one stale", |writer| {
            writer.put(SET_SLOT, &[4, READY_TILE, 3_000, 1, 0]);
            writer.put(GET, &[READY_TILE]);
            writer.put(SET_BYTE, &[2, 0]);
            refuse(writer, &[GET, FETCH, STEP, LOAD_FROM], READY_TILE, 12);
        });
    }

    /// States that number 12 doesn't name.
    fn odd_states(&mut self) {
        for (name, changes) in NOT_READ {
            self.row(name, |writer| {
                change(writer, changes);
                ask(writer, &[GET, FETCH, PAGES], ABSENT_TILE);
                for key in [LOADING_TILE, ABSENT_TILE, OTHER_TILE] {
                    writer.settle(key);
                    ask(writer, &[GET, PAGES], key);
                }
                ask(writer, &[CAPACITY, LOADS, CLEAR], 0);
            });
        }
        self.row("a run neither ready nor loading", |writer| {
            writer.put(SET_SLOT, &[4, OTHER_TILE, 100, 0, 0]);
            ask(writer, &[GET, FETCH, STEP, GET], OTHER_TILE);
            writer.settle(OTHER_TILE);
            writer.put(GET, &[OTHER_TILE]);
        });
        self.row("a tile that is loading and missing", |writer| {
            writer.put(SET_MISSING, &[63, LOADING_TILE]);
            ask(writer, &[GET, FETCH, STEP], LOADING_TILE);
        });
        self.row("the last place of the ring", |writer| {
            change(writer, &[(SET_PLACE, &[63]), (SET_MISSING, &[0, NO_KEY])]);
            ask(writer, &[GET, STEP, GET], MISSING_TILE);
        });
        self.row("a load that lacks a byte", |writer| {
            writer.put(SET_LOADING, &[LOADING_TILE, 1, LOADING_AT, 20_000, 19_999]);
            ask(writer, &[FETCH, STEP, GET], LOADING_TILE);
        });
    }

    /// What calls do to an open fetch that the state makes: those that come before `ends_by` leave
    /// it, and that one, if any, ends it.
    fn opened(&mut self, name: &str, fetch: &'static [u32], leave: &[Record], ends_by: Record) {
        self.row(name, |writer| {
            writer.put(SET_PENDING, fetch);
            for record in leave {
                writer.put(record[0], &record[1..]);
            }
            refuse(writer, &[GET, STEP], OUTSIDE[0], 9);
            deliver(writer, 11, &[[ABSENT_TILE, 0, 0, 7]]);
            writer.oracle.pending = [0, NO_KEY];
            writer.put(ends_by[0], &ends_by[1..]);
            writer.put(GET, &[READY_TILE]);
        });
    }

    fn open_fetches(&mut self) {
        let of = |kind, key| record(kind, &[key]);
        let miss = record(STEP, &[LOADING_TILE, 1]);
        let idle = [
            of(GET, READY_TILE),
            of(GET, ABSENT_TILE),
            of(FETCH, ABSENT_TILE),
            of(FETCH, LOADING_TILE),
            of(PAGES, READY_TILE),
            of(CAPACITY, 0),
            of(LOADS, 0),
            of(STEP, READY_TILE),
            of(LOAD_FROM, MISSING_TILE),
        ];
        let steps =
            [of(STEP, ABSENT_TILE), of(LOAD_FROM, OTHER_TILE), of(STEP, LOADING_TILE), miss];
        for step in steps.into_iter().chain([of(CLEAR, 0)]) {
            self.opened("an open entry", &[2, ABSENT_TILE], &idle, step);
            self.opened("an open chunk", &[3], &idle, step);
        }
        let all = [&idle[..], &steps].concat();
        self.opened("an open header", &[1], &all, of(CLEAR, 0));
        self.fresh("an open header with no pages", 0, |writer| {
            writer.put(SET_PENDING, &[1]);
            writer.put(STEP, &[ABSENT_TILE, 0]);
        });
    }

    /// A pack whose header is refused: its fields are zeros.
    fn no_header(&mut self) {
        let good = self.pack;
        let mut broken = good.bytes.clone();
        broken[100] ^= 1;
        for bytes in [broken, good.bytes[..511].to_vec(), Vec::new()] {
            let mut header = good.header;
            (header.tile, header.rows, header.cols) = (0, 0, 0);
            (header.directory, header.data, header.total) = (0, 0, 0);
            (header.south, header.west) = (0, 0);
            let pack = Pack { header, bytes };
            let case = Case::new(&pack, vec![1; 2 * PAGE_BYTES], |writer| {
                refuse(writer, &OF_ARENA, ABSENT_TILE, 12);
                refuse(writer, &OF_HEADER, ABSENT_TILE, 12);
                ask(writer, &[CAPACITY, LOADS, CLEAR], 0);
            });
            self.rows.push(("a pack without a header".into(), case));
        }
    }
}

pub fn pack() -> Pack {
    packs::of(&LENS)
}

/// The table over a pack of these tiles.
pub fn rows(pack: &Pack) -> Vec<(String, Case)> {
    let mut rows = Rows { pack, rows: Vec::new() };
    assert_eq!(
        [0, 1, 2, 3, 4].map(row),
        [READY_TILE, LOADING_TILE, MISSING_TILE, ABSENT_TILE, OTHER_TILE]
    );
    rows.states();
    rows.open_entries();
    rows.headers();
    rows.arenas();
    rows.keys();
    rows.deliveries();
    rows.stale_runs();
    rows.odd_states();
    rows.open_fetches();
    rows.no_header();
    rows.rows
}

pub fn compare() -> Tally {
    let mut tally = Tally::new("cache, refusals");
    rows(&pack()).iter().for_each(|(name, case)| case.count(&mut tally, name));
    tally
}
