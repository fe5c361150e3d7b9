//! Rows of the cache, the matcher and the road, over a pack of one row and two columns whose tiles
//! are both ready. The Rust is the build whose angles are the port's and whose fields are public.
use super::{doesnt_end, told};
use crate::engine::orders::network;
use crate::expected::caught;
use crate::ffi_terrain::{
    self as port, Engine, Header as PortHeader, Key, Lookup, Outcome, Point as PortPoint, Progress,
    Request, Road,
};
use crate::matching::roads::{Grid, Road as Line};
use crate::packs::{LIMIT, Plain};
use crate::replay::layout as at;
use crate::road::networks::plain;
use crate::road::start::{DIRECTION, EDGE, FRACTION, HEIGHT, KEY, RIDDEN, SEGMENT};
use crate::tally::Tally;
use crate::words::states::{PAGES, State, state};
use oracle::tile::{Edge, Node};
use oracle_angles::cache::{Cache, Lookup as Found, PAGE_BYTES, Slot};
use oracle_angles::engine::{Fix, Lookahead};
use oracle_angles::geo::Point;
use oracle_angles::matcher::{Matched, Matcher, nearby};
use oracle_angles::pack::{Header, TileKey};
use oracle_angles::predict::predict;
use oracle_angles::tile::TileId;
use std::fmt::Debug;

pub const NEAR: Point = Point { lat: 47_001_500, lon: 8_001_750 };
const FAR: Point = Point { lat: LIMIT + 1, lon: 0 };
/// Beside the grid's last column.
pub const OUTSIDE: TileKey = TileKey { row: 0, col: 2 };
pub const SECOND: TileKey = TileKey { row: 0, col: 1 };

/// The Rust's engine in the port's state "idle": both tiles ready, a road published.
fn idle<'a>(arena: &'a mut [u8], pack: &[u8]) -> Lookahead<'a> {
    let (mut engine, mut card) = (Lookahead::new(arena, 10_000.0), pack);
    engine.step(&mut card);
    for (lon, at_ms) in [(8_001_400, 500), (8_001_700, 1_000)] {
        engine.fix(Fix { lat: NEAR.lat, lon, at_ms });
    }
    (0..40).for_each(|_| _ = engine.step(&mut card));
    engine
}

/// What the Rust does with that engine and its pack.
pub fn with<R: Debug>(call: impl FnOnce(&mut Lookahead, &[u8]) -> R) -> String {
    let (pack, mut arena) = (network().pack.bytes, vec![0x33; PAGES * PAGE_BYTES]);
    let mut engine = idle(&mut arena, &pack);
    told(caught(|| call(&mut engine, &pack)))
}

/// Whether the Rust panics with it.
pub fn panics_with<R: Debug>(call: impl FnOnce(&mut Lookahead, &[u8]) -> R) -> bool {
    with(call).starts_with("panics")
}

pub fn header(pack: &[u8]) -> Header {
    Header::parse(pack.first_chunk().expect("a sector")).expect("a header")
}

/// That header with a rule broken.
fn short(pack: &[u8]) -> Header {
    Header { total: header(pack).data - 1, ..header(pack) }
}

/// The port's answer as a row judges it: a refusal's number.
pub fn refused(number: u32) -> Result<(), u32> {
    if number == 0 { Ok(()) } else { Err(number) }
}

pub fn of_lookup(answer: Lookup) -> Result<(), u32> {
    if let Lookup::Refused(number) = answer { Err(number) } else { Ok(()) }
}

fn of_request(answer: Request) -> Result<(), u32> {
    if let Request::Refused(number) = answer { Err(number) } else { Ok(()) }
}

fn of_progress(answer: Progress) -> Result<(), u32> {
    if let Progress::Refused(number) = answer { Err(number) } else { Ok(()) }
}

pub fn of_outcome(answer: Outcome) -> Result<(), u32> {
    if let Outcome::Refused(number) = answer { Err(number) } else { Ok(()) }
}

/// What a lookup of the Rust answers, without the tile.
#[derive(Debug)]
pub enum Looked {
    Ready,
    Missing,
    Absent,
}

pub fn looked(found: Found) -> Looked {
    match found {
        Found::Ready(_) => Looked::Ready,
        Found::Missing => Looked::Missing,
        Found::Absent => Looked::Absent,
    }
}

pub fn cache(tally: &mut Tally) {
    let s = &mut state("idle");
    let (h, key, arena) = (s.header, Key::of(2), s.arena.clone());
    let given = "key 0, 2 of a grid of one row and two columns";
    let get = of_lookup(port::cache_get(&mut s.words, &arena, h, key));
    row!(tally, "Cache::get", given, told: with(|e, _| looked(e.cache.get(OUTSIDE))), get, 9);
    let pages = port::cache_pages(&s.words, &arena, h, key);
    row!(tally, "Cache::pages", given, told: with(|e, _| e.cache.pages(OUTSIDE)), pages, 9);
    let load = with(|e, pack| e.cache.load(&mut &pack[..], &header(pack), OUTSIDE));
    let loaded = of_progress(port::cache_load_from(&mut s.words, &mut s.arena, h, key, &s.pack));
    row!(tally, "Cache::load", given, told: load, loaded, 9);
    let none = "has no such call: `load` reads by itself";
    let fetch = of_request(port::cache_fetch(&s.words, &arena, h, key));
    row!(tally, "Cache::load", format!("the read that comes next, {given}"), told: none, fetch, 9);
    let load = with(|e, pack| {
        e.cache.clear();
        e.cache.load(&mut &pack[..], &short(pack), SECOND)
    });
    let (h, key) = (PortHeader { total: h.data - 1, ..h }, Key::of(1));
    assert_eq!(port::cache_clear(&mut s.words, &arena), 0);
    let loaded = of_progress(port::cache_load_from(&mut s.words, &mut s.arena, h, key, &s.pack));
    let given = "a header that breaks a rule, here total below data; so `get` and `pages`, which the Rust gives none";
    row!(tally, "Cache::load", given, told: load, loaded, 12);
    deliveries(tally);
}

/// What the port's `load` is given and no fetch fits. The Rust's reads for itself.
fn deliveries(tally: &mut Tally) {
    let mut s = state("idle");
    assert_eq!(port::cache_clear(&mut s.words, &s.arena), 0);
    let mut load = |failure, len| {
        let (w, bytes) = (&mut s.words.clone(), &s.pack[..len]);
        of_progress(port::cache_load(w, &mut s.arena, s.header, Key::of(0), failure, bytes))
    };
    let given = "7 bytes delivered for an entry";
    row!(tally, "Cache::load", given, told: "can't be given: the buffer is its own", load(0, 7), 11);
    let other = with(|e, pack| {
        e.cache.clear();
        e.cache.load(&mut super::engine::Answers(3), &header(pack), TileKey { row: 0, col: 0 })
    });
    row!(tally, "Cache::load", "failure 3, the Rust's `Error::Unsupported`", told: other, load(3, 0), 11);
    let mut s = state("idle");
    let load =
        of_progress(port::cache_load(&mut s.words, &mut s.arena, s.header, Key::of(0), 1, &[]));
    let given = "a failure delivered for a tile that is ready";
    row!(tally, "Cache::load", given, told: "can't be given: it reads nothing", load, 11);
}

/// The port's update of the state's matcher.
fn updated(s: &State, header: PortHeader, fix: Point, heading: Option<f32>) -> Result<(), u32> {
    let (mut m, mut w) = (s.matcher, s.words);
    let fix = PortPoint { lat: fix.lat, lon: fix.lon };
    of_outcome(port::matcher_update(&mut m, &mut w, &s.arena, header, fix, heading))
}

/// What is matched, in short.
#[derive(Debug)]
struct OnEdge(#[expect(dead_code, reason = "it is printed")] u16);

fn on_edge(found: Option<Matched>) -> Option<OnEdge> {
    found.map(|m| OnEdge(m.edge))
}

/// The Rust's, and what it matched.
fn update(
    e: &mut Lookahead,
    header: &Header,
    fix: Point,
    heading: Option<f32>,
) -> impl Debug + use<> {
    e.matcher.update(&e.cache, header, fix, heading).map(on_edge)
}

pub fn matcher(tally: &mut Tally) {
    let s = &state("idle");
    let (h, far) = (s.header, PortPoint { lat: FAR.lat, lon: FAR.lon });
    let keys = |header: &Header, fix| {
        let mut keys = [None; 4];
        nearby(header, fix, &mut keys);
        keys
    };
    let given = format!("latitude {}", FAR.lat);
    let rust = with(|_, pack| keys(&header(pack), FAR));
    row!(tally, "matcher::nearby", given, told: rust, port::nearby(h, far), 8);
    let rust = with(|e, pack| update(e, &header(pack), FAR, None));
    row!(tally, "Matcher::update", given, told: rust, updated(s, h, FAR, None), 8);
    let (none, given) =
        (PortHeader { tile: 0, ..h }, "a header that breaks a rule, here tile size 0");
    let no_size = |pack: &[u8]| Header { tile: 0, ..header(pack) };
    let rust = with(|_, pack| keys(&no_size(pack), NEAR));
    let near = PortPoint { lat: NEAR.lat, lon: NEAR.lon };
    row!(tally, "matcher::nearby", given, told: rust, port::nearby(none, near), 12);
    let rust = with(|e, pack| update(e, &no_size(pack), NEAR, None));
    row!(tally, "Matcher::update", given, told: rust, updated(s, none, NEAR, None), 12);
    for degrees in [360_f32.next_up(), f32::NAN] {
        let rust = with(|e, pack| update(e, &header(pack), NEAR, Some(degrees)));
        let port = updated(s, h, NEAR, Some(degrees));
        row!(tally, "Matcher::update", format!("heading {degrees}"), told: rust, port, 8);
    }
    for degrees in [8_589_935_616_f32, f32::INFINITY] {
        let call = move || with(|e, pack| update(e, &header(pack), NEAR, Some(degrees)));
        let port = updated(s, h, NEAR, Some(degrees));
        row!(tally, "Matcher::update", format!("heading {}, an edge in reach", f64::from(degrees)), told: doesnt_end(call), port, 8);
    }
    longest(tally);
    challenged(tally);
}

/// An edge of 65,535 vertices takes 49 pages, so the port's cache, whose lengths have 16 bits, can't
/// hold it, and the Rust's where its state is made so: a load takes six pages at most.
fn longest(tally: &mut Tally) {
    let (from, to) = (Node { x: 0, y: 0, z: 0 }, Node { x: 2_900, y: 2_900, z: 0 });
    let edge =
        Edge { from: 0, to: 1, first_vertex: 0, vertices: 65_535, class: 1, flags: 0, group: 0 };
    let key = oracle::pack::TileKey { row: 0, col: 0 };
    let mut plain = Plain {
        key,
        lon_um: 75_834,
        nodes: vec![from, to],
        starts: Vec::new(),
        entries: Vec::new(),
        edges: vec![edge],
        vertices: vec![from; 65_535],
    };
    plain.link();
    let (bytes, pack) = (plain.bytes(), network().pack.bytes);
    let pages = bytes.len().div_ceil(PAGE_BYTES);
    let mut arena = vec![0; pages * PAGE_BYTES];
    arena[..bytes.len()].copy_from_slice(&bytes);
    let mut cache = Cache::new(&mut arena);
    let key = Some(TileKey { row: 0, col: 0 });
    cache.slots[0] = Slot { key, len: bytes.len(), ready: true, part_of: None };
    (1..pages).for_each(|page| cache.slots[page].part_of = Some(0));
    let fix = Point { lat: 47_002_900, lon: 8_002_900 };
    let rust = told(caught(|| {
        Matcher::default().update(&cache, &header(&pack), fix, None).map(|m| m.map(|m| m.segment))
    }));
    let mut s = state("idle");
    s.words[at::SLOTS + 2] = bytes.len() as u32;
    let given = format!(
        "a ready run of {} bytes: an edge of 65,535 vertices whose last segment, to point 65,536, is nearest",
        bytes.len()
    );
    row!(tally, "Matcher::update", given, told: rust, updated(&s, s.header, NEAR, None), 12);
}

/// Two roads 30 m apart; the match is on the first, the fix on the second, which has challenged it.
fn challenged(tally: &mut Tally) {
    let grid =
        Grid { size: 3_000, rows: 1, cols: 1, south: 47_000_000, west: 8_000_000, lon_um: 75_834 };
    let road =
        |y| Line { places: vec![(400, y, 3_000), (2_600, y, 3_000)], class: 3, flags: 0, group: 0 };
    let pack = plain(grid, vec![road(1_500), road(1_770)]).pack.bytes;
    let count_up = |count: u8| {
        let mut arena = vec![0; PAGE_BYTES];
        let (mut cache, mut m) = (Cache::new(&mut arena), Matcher::default());
        let (header, key) = (header(&pack), TileKey { row: 0, col: 0 });
        while cache.load(&mut &pack[..], &header, key) == Ok(false) {}
        let on = |y: i32| Point { lat: 47_000_000 + y, lon: 8_001_500 };
        let first = m.update(&cache, &header, on(1_500), Some(90.0)).ok().flatten();
        let first = first.expect("a match on the first road");
        m.challenger = Some((first.tile, 1 - first.edge, count));
        told(caught(|| m.update(&cache, &header, on(1_770), Some(90.0)).map(on_edge)))
    };
    for count in [2, 255] {
        let mut s = state("idle");
        let edges = s.matcher[3];
        s.matcher[at::CHALLENGER..at::MISSES].copy_from_slice(&[1, 0, 99, edges, 0, count.into()]);
        let given = format!("a challenger that was counted {count} times, again the better match");
        let port = updated(&s, s.header, NEAR, None);
        row!(tally, "Matcher::update", given, told: count_up(count), port, 12);
    }
}

/// A start of the Rust's, of its 13 words.
fn start(w: &[u32; 13]) -> Matched {
    let key = TileKey { row: (w[0] >> 16) as u16, col: w[0] as u16 };
    Matched {
        tile: TileId { key, crc: w[1], edges: w[2] as u16 },
        edge: w[3] as u16,
        segment: w[4] as u16,
        fraction: f32::from_bits(w[5]),
        forward: [None, Some(false), Some(true)][w[6] as usize],
        offset_m: f32::from_bits(w[7]),
        z_dm: w[8] as i32,
        class: w[9] as u8,
        flags: w[10] as u8,
        confidence: w[11] as u8,
        ridden_m: f32::from_bits(w[12]),
    }
}

/// The Rust's road from a start on, by how it ends.
fn road(e: &Lookahead, header: &Header, w: &[u32; 13]) -> impl Debug + use<> {
    let (mut ahead, mut behind) = ([0; at::AHEAD], [0; at::BACK]);
    predict(&e.cache, header, &start(w), 10_000.0, &mut ahead, &mut behind).map(|road| road.end)
}

fn predicted(s: &State, w: &mut Engine, header: PortHeader, words: &[u32; 13]) -> Result<(), u32> {
    let (mut ahead, mut behind) = ([0; at::AHEAD], [0; at::BACK]);
    let start = port::Matched::of(words);
    match port::predict(w, &s.arena, header, start, 10_000.0, &mut ahead, &mut behind) {
        Road::Refused(number) => Err(number),
        Road::Road(_) | Road::Need(_) | Road::Rematch => Ok(()),
    }
}

/// Starts that differ from a good one in one field.
struct Starts {
    state: State,
    good: [u32; 13],
}

impl Starts {
    fn new() -> Self {
        let state = state("idle");
        let good = state.words[at::MATCHER + 1..][..13].try_into().expect("13 words");
        let starts = Self { state, good };
        assert!(starts.port(good).is_ok() && !starts.stops(KEY, good[KEY]), "a good start");
        starts
    }

    fn with(&self, field: usize, value: u32) -> [u32; 13] {
        let mut words = self.good;
        words[field] = value;
        words
    }

    fn rust(&self, w: [u32; 13]) -> String {
        with(|e, pack| road(e, &header(pack), &w))
    }

    fn port(&self, w: [u32; 13]) -> Result<(), u32> {
        predicted(&self.state, &mut self.state.words.clone(), self.state.header, &w)
    }

    /// Whether the Rust panics.
    fn stops(&self, field: usize, value: u32) -> bool {
        self.rust(self.with(field, value)).starts_with("panics")
    }

    /// A row of number 10.
    fn row(&self, tally: &mut Tally, name: &str, field: usize, value: u32) {
        let (given, w) = (format!("a start with {name}"), self.with(field, value));
        row!(tally, "predict", given, told: self.rust(w), self.port(w), 10);
    }

    /// Its edge and its segment.
    fn places(&self, tally: &mut Tally) {
        let edges = u64::from(self.good[EDGE - 1]);
        let stops = super::least(edges - 1, 65_535, |n| self.stops(EDGE, n as u32));
        assert_eq!(stops, edges, "the first edge that is none panics");
        self.row(tally, &format!("edge {edges} of a tile of {edges}"), EDGE, edges as u32);
        let last = u32::from(network().plains[0].edges[self.good[EDGE] as usize].vertices);
        for n in [last + 1, 65_535] {
            let name = format!("segment {n} of an edge of {last} vertices");
            self.row(tally, &name, SEGMENT, n);
        }
    }

    /// Backwards a walk from past the last point on goes on counting points, all of them the end node.
    fn back(&self, tally: &mut Tally) {
        let last = u32::from(network().plains[0].edges[self.good[EDGE] as usize].vertices);
        let mut w = self.with(SEGMENT, last + 1);
        (w[DIRECTION], w[RIDDEN]) = (1, 1_f32.to_bits());
        let rust = doesnt_end(move || with(|e, pack| road(e, &header(pack), &w)));
        let given = format!(
            "a start back from segment {} of an edge of {last} vertices, 1 m ridden",
            last + 1
        );
        row!(tally, "predict", given, told: rust, self.port(w), 10);
    }

    /// Its fraction and its height.
    fn figures(&self, tally: &mut Tally) {
        let [one, most] = [1.0, f32::INFINITY].map(|x: f32| x.to_bits().into());
        let large = super::least(one, most, |n| self.stops(FRACTION, n as u32)) as u32;
        for x in [1_f32.next_up(), (-0_f32).next_down(), f32::NAN, f32::from_bits(large)] {
            self.row(tally, &format!("fraction {x:?}"), FRACTION, x.to_bits());
        }
        let low = |n: u64| (n as i32).wrapping_neg() as u32;
        let least = super::least(1_000_000, 1 << 31, |n| self.stops(HEIGHT, low(n)));
        for z in [1_000_001, low(1_000_001), low(least)] {
            self.row(tally, &format!("height {}", z as i32), HEIGHT, z);
        }
    }
}

pub fn roads(tally: &mut Tally) {
    let starts = Starts::new();
    let given = "a start with key 0, 2 of a grid of one row and two columns";
    let (s, w) = (&starts.state, starts.with(KEY, 2));
    row!(tally, "predict", given, told: starts.rust(w), starts.port(w), 9);
    starts.places(tally);
    starts.back(tally);
    starts.figures(tally);
    let given = "a header that breaks a rule, here south 2147483647";
    let north = |pack: &[u8]| Header { south: i32::MAX, ..header(pack) };
    let rust = with(|e, pack| road(e, &north(pack), &starts.good));
    let h = PortHeader { south: i32::MAX, ..s.header };
    let port = predicted(s, &mut s.words.clone(), h, &starts.good);
    row!(tally, "predict", given, told: rust, port, 12);
}
