//! Rows of the engine: its calls, and the states that number 12 refuses, one row at least for each
//! cause of document 01, or that stop the Rust. A state is the Rust's own with one field set.
use super::parts::{NEAR, OUTSIDE, SECOND, header, looked, of_lookup, panics_with, refused, with};
use super::{doesnt_end, least, told};
use crate::engine::orders::network;
use crate::expected::caught;
use crate::ffi_terrain::{self as port, Key, Point as PortPoint, Status};
use crate::packs::LIMIT;
use crate::replay::layout as at;
use crate::tally::Tally;
use crate::words::states::{PAGES, state};
use oracle_angles::cache::{Loading, PAGE_BYTES, Slot};
use oracle_angles::engine::{Fix, Lookahead, Pack};
use oracle_angles::pack::{Error, Header, Source, TileKey};

/// A source that answers every read with a failure of this number.
pub struct Answers(pub u32);

impl Source for Answers {
    fn read(&mut self, _: u64, _: &mut [u8]) -> Result<(), Error> {
        Err(if self.0 == 1 { Error::Media } else { Error::Unsupported })
    }
}

fn of_status(answer: Status) -> Result<(), u32> {
    if let Status::Refused(number) = answer { Err(number) } else { Ok(()) }
}

fn fix(lat: i32, lon: i32) -> Fix {
    Fix { lat, lon, at_ms: 9_000 }
}

/// The next fix along the road.
fn next() -> Fix {
    fix(NEAR.lat, NEAR.lon)
}

pub fn calls(tally: &mut Tally) {
    let s = &state("fresh");
    let given = |f: Fix| {
        let at = PortPoint { lat: f.lat, lon: f.lon };
        refused(port::fix(&mut s.words.clone(), &s.arena, at, f.at_ms))
    };
    let taken = |fixes: &[Fix]| {
        let mut engine = Lookahead::new(&mut [], 10_000.0);
        told(caught(|| fixes.iter().for_each(|&f| engine.fix(f))))
    };
    let far = fix(LIMIT + 1, 0);
    let name = format!("latitude {}; longitudes alike", far.lat);
    row!(tally, "Lookahead::fix", name, told: taken(&[far]), given(far), 8);
    let both = |n: u64| [fix(n as i32, 0), fix(-(n as i32) - 1, 0)];
    let stops = |n: u64| taken(&both(n)).starts_with("panics");
    let [first, second] = both(least(0, i32::MAX as u64, stops));
    let name = format!("latitude {} after {}; longitudes alike", second.lat, first.lat);
    let port = given(first).and(given(second)).and(Ok(()));
    row!(tally, "Lookahead::fix", name, told: taken(&[first, second]), port, 8);
    deliveries(tally);
}

/// The Rust's step reads for itself; the port's ends with a fetch that is answered.
fn deliveries(tally: &mut Tally) {
    let deliver = |name: &str, failure, len| {
        let mut s = state(name);
        of_status(port::deliver(&mut s.words, &mut s.arena, failure, &s.pack[..len]))
    };
    let none = "has no such call: `step` reads by itself";
    row!(tally, "Lookahead::step", "a delivery with no open fetch", told: none, deliver("idle", 0, 0), 11);
    let given = "511 bytes delivered for a header";
    let own = "can't be given: the buffer is its own";
    row!(tally, "Lookahead::step", given, told: own, deliver("open header", 0, 511), 11);
    let given = "failure 3, the Rust's `Error::Unsupported`, for a header";
    let rust = told(caught(|| Lookahead::new(&mut [], 10_000.0).step(&mut Answers(3))));
    row!(tally, "Lookahead::step", given, told: rust, deliver("open header", 3, 0), 11);
}

/// The port's number for a state with words set, by a step.
fn stepped(name: &str, set: &[(usize, u32)]) -> Result<(), u32> {
    let mut s = state(name);
    set.iter().for_each(|&(place, word)| s.words[place] = word);
    of_status(port::step(&mut s.words, &s.arena))
}

/// What the Rust does when it is stepped, a new fix given before that.
fn on(set: impl FnOnce(&mut Lookahead)) -> String {
    with(|e, mut pack| {
        set(e);
        e.fix(next());
        e.step(&mut pack)
    })
}

/// The same with nothing given.
fn still(set: impl FnOnce(&mut Lookahead)) -> String {
    with(|e, mut pack| {
        set(e);
        e.step(&mut pack)
    })
}

const STEP: &str = "Lookahead::step";

fn counts(tally: &mut Tally) {
    let port = |place, n| stepped("idle", &[(place, n)]);
    let rust = still(|e| e.ahead.len = 502);
    row!(tally, STEP, "502 heights ahead, of an array of 501", told: rust, port(at::LEN, 502), 12);
    let rust = still(|e| e.ahead.behind_len = 12);
    row!(tally, STEP, "12 heights behind, of an array of 11", told: rust, port(at::BEHIND_LEN, 12), 12);
    let rust = with(|e, _| {
        e.history_len = 17;
        e.fix(next());
    });
    row!(tally, "Lookahead::fix", "17 places of the history, of an array of 16", told: rust, port(at::HISTORY_LEN, 17), 12);
    let rust = on(|e| e.cache.count = 97);
    row!(tally, STEP, "97 pages, of an array of 96", told: rust, port(at::COUNT, 97), 12);
    let rust = still(|e| e.failures = 9);
    row!(tally, STEP, "9 failures", told: rust, port(at::FAILURES, 9), 12);
    let rust = still(|e| e.failures = 8);
    row!(tally, STEP, "8 failures of a pack that is read", told: rust, port(at::FAILURES, 8), 12);
    let unread = |failures: u64| {
        let mut engine = Lookahead::new(&mut [], 10_000.0);
        engine.failures = failures as u8;
        told(caught(|| engine.step(&mut Answers(1))))
    };
    let n = least(8, 255, |n| unread(n).starts_with("panics"));
    let given = format!("{n} failures, the header unread and its read missed");
    row!(tally, STEP, given, told: unread(n), stepped("fresh", &[(at::FAILURES, n as u32)]), 12);
    let limit = 2 * PAGES as u64 + 16;
    let reload = |n: u64| {
        on(|e| {
            e.cache.clear();
            e.reloads = n as u16;
        })
    };
    let most = least(limit, 65_535, |n| reload(n).starts_with("panics"));
    for n in [limit + 1, most] {
        let given = format!(
            "{n} reloads of {PAGES} pages, where {limit} is the limit, and a tile that is absent"
        );
        row!(tally, STEP, given, told: reload(n), port(at::RELOADS, n as u32), 12);
    }
}

fn places(tally: &mut Tally) {
    let far = LIMIT + 1;
    let rust = still(|e| e.fix = Some(fix(far, 0)));
    let given = format!("a held fix at latitude {far}");
    row!(tally, STEP, given, told: rust, stepped("idle", &[(at::FIX + 1, far as u32)]), 12);
    let rust = with(|e, _| [fix(far, 0), next()].into_iter().for_each(|f| e.fix(f)));
    let given = format!("a place of the history at latitude {far}, another fix");
    row!(tally, "Lookahead::fix", given, told: rust, stepped("idle", &[(at::HISTORY, far as u32)]), 12);
    let heading =
        |degrees: f32| stepped("idle", &[(at::HEADING, 1), (at::HEADING + 1, degrees.to_bits())]);
    // A place that stays near keeps the heading that is held.
    let held = |degrees: f32| {
        with(move |e, mut pack| {
            e.fix(next());
            e.heading = Some((degrees, 9_000));
            e.step(&mut pack)
        })
    };
    for degrees in [360_f32.next_up(), f32::NAN] {
        let given = format!("a held heading of {degrees}, a match due");
        row!(tally, STEP, given, told: held(degrees), heading(degrees), 12);
    }
    let given = "a held heading of inf, a match due and an edge in reach";
    let rust = doesnt_end(move || held(f32::INFINITY));
    row!(tally, STEP, given, told: rust, heading(f32::INFINITY), 12);
}

fn keys(tally: &mut Tally) {
    let rust = still(|e| e.need = Some(OUTSIDE));
    let given = "a needed key 0, 2 of a grid of one row and two columns";
    row!(tally, STEP, given, told: rust, stepped("idle", &[(at::NEED, 1), (at::NEED + 1, 2)]), 12);
    let matched =
        |e: &mut Lookahead| e.matcher.current.as_mut().expect("a match").tile.key = OUTSIDE;
    let rust = still(|e| {
        matched(e);
        e.predict_due = true;
    });
    let given = "a matched key 0, 2 of that grid, a road due";
    row!(tally, STEP, given, told: rust, stepped("idle", &[(at::MATCHER + 1, 2)]), 12);
    let rust = still(|e| e.ahead.matched.as_mut().expect("a match").tile.key = OUTSIDE);
    let given = "a published match with that key";
    row!(tally, STEP, given, told: rust, stepped("idle", &[(at::MATCHED + 1, 2)]), 12);
    let rust = still(|e| e.pack = Pack::Unread);
    let given = "a matched key while the header is unread";
    row!(tally, STEP, given, told: rust, stepped("idle", &[(at::PHASE, 0)]), 12);
    let rust = still(|e| (e.pack, e.need) = (Pack::Unread, Some(SECOND)));
    let needed = [(at::NEED, 1), (at::NEED + 1, 1)];
    let given = "a needed key while the header is unread";
    row!(tally, STEP, given, told: rust, stepped("fresh", &needed), 12);
}

/// Edges that the matcher holds, and the header.
fn edges(tally: &mut Tally) {
    let edge = |n: u64| on(|e| e.matcher.current.as_mut().expect("a match").edge = n as u16);
    let edges = u64::from(state("idle").words[at::MATCHER + 3]);
    let stops = least(edges - 1, 65_535, |n| edge(n).starts_with("panics"));
    for n in [edges, stops] {
        let given = format!("a matched edge {n} of a tile of {edges}, a match due");
        row!(tally, STEP, given, told: edge(n), stepped("idle", &[(at::MATCHER + 4, n as u32)]), 12);
    }
    let rust = on(|e| {
        let tile = e.matcher.current.expect("a match").tile;
        e.matcher.challenger = Some((tile, tile.edges, 1));
    });
    let w = state("idle").words;
    let [key, crc, count] = [1, 2, 3].map(|n| w[at::MATCHER + n]);
    let words = [1, key, crc, count, count, 1];
    let set: Vec<_> = words.iter().enumerate().map(|(n, &w)| (at::CHALLENGER_OF + n, w)).collect();
    let given = format!("a challenger's edge {edges} of a tile of {edges}, a match due");
    row!(tally, STEP, given, told: rust, stepped("idle", &set), 12);
    let rust = on(|e| {
        if let Pack::Ready(header) = e.pack {
            e.pack = Pack::Ready(Header { tile: 0, ..header });
        }
    });
    let given = "a read header that breaks a rule, here tile size 0";
    row!(tally, STEP, given, told: rust, stepped("idle", &[(at::HEADER, 0)]), 12);
}

/// A held match outside its tile, which is no cause of 12: a step that is to follow its road takes
/// 10 for 6, forgets the match and is to match again.
fn held(tally: &mut Tally) {
    let port = |set: &[(usize, u32)]| {
        let mut s = state("road due");
        set.iter().for_each(|&(place, word)| s.words[at::MATCHER + place] = word);
        let working = matches!(port::step(&mut s.words, &s.arena), Status::Working);
        working && s.words[at::MATCHER] == 0 && s.words[at::MATCHING] == 1
    };
    let last = network().plains[0].edges[0].vertices;
    let back = move || {
        with(|e, mut pack| {
            let m = e.matcher.current.as_mut().expect("a match");
            assert_eq!(m.edge, 0);
            (m.segment, m.forward, m.ridden_m) = (last + 1, Some(false), 1.0);
            e.predict_due = true;
            e.step(&mut pack)
        })
    };
    let low = still(|e| {
        e.matcher.current.as_mut().expect("a match").z_dm = i32::MIN;
        e.predict_due = true;
    });
    let segment = u32::from(last) + 1;
    let rows = [
        (
            format!(
                "a held match back from segment {segment} of an edge of {last} vertices, 1 m ridden, a road due"
            ),
            doesnt_end(back),
            port(&[(5, segment), (7, 1), (13, 1_f32.to_bits())]),
        ),
        (
            format!("a held match with height {}, a road due", i32::MIN),
            low,
            port(&[(9, i32::MIN as u32)]),
        ),
    ];
    for (given, rust, is_so) in rows {
        super::put(format!(
            "| `{STEP}` | {given} | {rust} | Working: 10 inside a step is taken for 6 |"
        ));
        tally.same(given, (STEP, is_so, true));
    }
}

/// A run's first slot, as the Rust has it and in words.
fn run(len: usize) -> Slot {
    Slot { key: Some(TileKey { row: 0, col: 0 }), len, ready: true, part_of: None }
}

fn slot(page: usize, kind: u32, key: u32, len: u32) -> [(usize, u32); 3] {
    let place = at::SLOTS + 3 * page;
    [(place, kind), (place + 1, key), (place + 2, len)]
}

fn runs(tally: &mut Tally) {
    let first = TileKey { row: 0, col: 0 };
    let get = |page: usize, len: usize| {
        with(|e, _| {
            e.cache.clear();
            e.cache.slots[page] = run(len);
            looked(e.cache.get(first))
        })
    };
    // On page 0 beside the other tile's run, elsewhere alone.
    let port = |page, len| {
        let mut s = state("idle");
        assert!(page == 0 || port::cache_clear(&mut s.words, &s.arena) == 0);
        slot(page, 3, 0, len).iter().for_each(|&(place, word)| s.words[place] = word);
        of_lookup(port::cache_get(&mut s.words, &s.arena, s.header, Key::of(0)))
    };
    let rust = with(|e, _| {
        e.cache.slots[0].len = 8_193;
        looked(e.cache.get(first))
    });
    row!(tally, "Cache::get", "a ready run of 8,193 bytes on page 0, another run on page 1", told: rust, port(0, 8_193), 12);
    row!(tally, "Cache::get", "a ready run of 8,193 bytes on page 5, page 6 no part of it", told: get(5, 8_193), port(5, 8_193), 12);
    row!(tally, "Cache::get", "a ready run of 8,193 bytes on page 7 of 8", told: get(7, 8_193), port(7, 8_193), 12);
    row!(tally, "Cache::get", "a ready run of 0 bytes on page 5", told: get(5, 0), port(5, 0), 12);
}

/// A page that is a part of no run.
fn parts(tally: &mut Tally) {
    let part = |head: u64| {
        with(|e, pack| {
            e.cache.clear();
            e.cache.slots[5].part_of = Some(head as usize);
            e.cache.load(&mut &pack[..], &header(pack), SECOND)
        })
    };
    let of = |head: u64| stepped("idle", &slot(5, 4 * (head as u32 + 1), 0, 0));
    let stops = least(4, 255, |head| part(head).starts_with("panics"));
    for head in [4, stops] {
        let given = format!("page 5 a part of a run from page {head} on, where none is");
        row!(tally, "Cache::load", given, told: part(head), of(head), 12);
    }
}

fn loads(tally: &mut Tally) {
    // The run of 100 bytes is on page 5, its load on page `slot`.
    let load = |slot: u64, done: u64| {
        with(|e, pack| {
            e.cache.clear();
            e.cache.slots[5] = Slot { key: Some(SECOND), len: 100, ready: false, part_of: None };
            let (slot, done) = (slot as usize, done as usize);
            e.cache.loading = Some(Loading { key: SECOND, slot, offset: 512, len: 100, done });
            e.cache.load(&mut &pack[..], &header(pack), SECOND)
        })
    };
    let port = |page: u64, done: u64| {
        let mut s = state("idle");
        assert_eq!(port::cache_clear(&mut s.words, &s.arena), 0);
        let words = [1, 1, page as u32, 512, 100, done as u32];
        s.words[at::LOADING..][..6].copy_from_slice(&words);
        slot(5, 1, 1, 100).iter().for_each(|&(place, word)| s.words[place] = word);
        of_lookup(port::cache_get(&mut s.words, &s.arena, s.header, Key::of(1)))
    };
    assert!(port(5, 0).is_ok() && !load(5, 0).starts_with("panics"), "the load itself is good");
    let stops = least(5, 96, |page| load(page, 0).starts_with("panics"));
    for page in [4, stops] {
        let given = format!("a load on page {page} of {PAGES}, its run on page 5");
        row!(tally, "Cache::load", given, told: load(page, 0), port(page, 0), 12);
    }
    for done in [100, 101] {
        let given = format!("a load of 100 bytes that has {done}");
        row!(tally, "Cache::load", given, told: load(5, done), port(5, done), 12);
    }
    let own = "can't hold it: it has no open fetch";
    let open = stepped("idle", &[(at::PENDING, 3)]);
    row!(tally, STEP, "an open fetch that the state would not make, here a chunk with no load", told: own, open, 12);
}

fn rings(tally: &mut Tally) {
    let spoilt = |pack: &[u8]| {
        let mut bytes = pack.to_vec();
        *bytes.last_mut().expect("bytes") ^= 1;
        bytes
    };
    let forget = |place: u64| {
        with(|e, pack| {
            let (header, bytes) = (header(pack), spoilt(pack));
            e.cache.clear();
            e.cache.next_missing = place as usize;
            while e.cache.load(&mut &bytes[..], &header, SECOND) == Ok(false) {}
            looked(e.cache.get(SECOND))
        })
    };
    let place = least(63, 1 << 32, |n| forget(n).starts_with("panics"));
    let given =
        format!("place {place} of the ring of 64 is next, a corrupt tile's last chunk read");
    row!(tally, "Cache::load", given, told: forget(place), stepped("idle", &[(at::NEXT, place as u32)]), 12);
}

fn arenas(tally: &mut Tally) {
    let first = TileKey { row: 0, col: 0 };
    let rust = with(|e, _| {
        let arena = std::mem::take(&mut e.cache.arena);
        e.cache.arena = &mut arena[..PAGES * PAGE_BYTES - 1];
        e.cache.clear();
        e.cache.slots[7] = run(8_192);
        looked(e.cache.get(first))
    });
    let mut s = state("idle");
    let lent = &s.arena[..PAGES * PAGE_BYTES - 1];
    let port = of_lookup(port::cache_get(&mut s.words, lent, s.header, Key::of(0)));
    let given = "an arena of 65,535 bytes for 8 pages, a ready run on the last";
    row!(tally, "Cache::get", given, told: rust, port, 12);
    // A tile's byte 2 is its version, bytes 10 and 11 count its edges; both are in page 0.
    let changed = |at: usize, byte: u8| {
        let rust = with(|e, _| {
            e.cache.arena[at] = byte;
            looked(e.cache.get(first))
        });
        let matched = on(|e| e.cache.arena[at] = byte);
        let mut s = state("idle");
        s.arena[at] = byte;
        (rust, matched, of_lookup(port::cache_get(&mut s.words, &s.arena, s.header, Key::of(0))))
    };
    assert_eq!(state("idle").arena[..3], *b"VT\x01", "the first tile is on page 0");
    let (rust, _, port) = changed(2, 2);
    row!(tally, "Cache::get", "a ready run whose version became 2", told: rust, port, 12);
    let (_, matched, port) = changed(11, 255);
    row!(tally, STEP, "a ready run whose count of edges became 65,282, a match due", told: matched, port, 12);
    let own = "can't hold it: it has no words";
    let version = stepped("idle", &[(at::VERSION, 2)]);
    row!(tally, STEP, "words that no engine has, here version 2", told: own, version, 12);
}

pub fn states(tally: &mut Tally) {
    assert!(!panics_with(|e, mut pack| e.step(&mut pack)), "the state itself is good");
    assert_eq!(network().pack.bytes, state("idle").pack);
    counts(tally);
    places(tally);
    keys(tally);
    edges(tally);
    held(tally);
    runs(tally);
    parts(tally);
    loads(tally);
    rings(tally);
    arenas(tally);
}
