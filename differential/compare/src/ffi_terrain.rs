//! The engine's functions of include/terrain.h, and those on its parts.
use crate::ffi_format;
use crate::matching::script::figure;
use crate::replay::layout as at;
use crate::replay::layout::{AHEAD, BACK, MATCHER_WORDS, WORDS};

/// Stands in an answer's number where there is no result.
const NONE: u32 = 256;

pub type Engine = [u32; WORDS];
pub type MatcherWords = [u32; MATCHER_WORDS];

#[derive(Clone, Copy)]
#[repr(C)]
pub struct Point {
    pub lat: i32,
    pub lon: i32,
}

#[derive(Clone, Copy, Debug, PartialEq)]
#[repr(C)]
pub struct Key {
    pub row: u16,
    pub col: u16,
}

impl Key {
    pub fn of(word: u32) -> Self {
        Self { row: (word >> 16) as u16, col: word as u16 }
    }

    pub fn word(self) -> u32 {
        u32::from(self.row) << 16 | u32::from(self.col)
    }
}

#[derive(Clone, Copy, Debug, Default, PartialEq)]
#[repr(C)]
pub struct Header {
    pub tile: u32,
    pub south: i32,
    pub west: i32,
    pub rows: u16,
    pub cols: u16,
    pub directory: u32,
    pub data: u32,
    pub total: u32,
    pub tiles: u32,
    pub created: u64,
    pub attribution_offset: u32,
    pub attribution_len: u32,
}

impl Header {
    /// Of an engine's words; rows and columns keep their low 16 bits.
    pub fn of(w: &[u32; 13]) -> Self {
        let [tile, south, west, rows, cols, directory, data, total, tiles, low, high, ..] = *w;
        Self {
            tile,
            south: south as i32,
            west: west as i32,
            rows: rows as u16,
            cols: cols as u16,
            directory,
            data,
            total,
            tiles,
            created: u64::from(low) | u64::from(high) << 32,
            attribution_offset: w[11],
            attribution_len: w[12],
        }
    }

    pub fn words(&self) -> [u32; 13] {
        let [low, high] = [self.created as u32, (self.created >> 32) as u32];
        let [rows, cols] = [self.rows.into(), self.cols.into()];
        let first = [self.tile, self.south as u32, self.west as u32, rows, cols, self.directory];
        let rest = [self.data, self.total, self.tiles, low, high];
        let last = [self.attribution_offset, self.attribution_len];
        [&first[..], &rest, &last].concat().try_into().expect("13 words")
    }
}

#[derive(Debug)]
pub enum Status {
    Idle,
    Working,
    NoPack,
    OffMap,
    Fetch(u64, usize),
    Refused(u32),
}

#[repr(C)]
struct StepTold {
    number: u32,
    status: u32,
    offset: u64,
    len: u64,
}

impl StepTold {
    /// Each answer in the one form that it has; another form is no answer's.
    fn status(self) -> Status {
        match (self.number, self.status, self.offset, self.len) {
            (0, 0, 0, 0) => Status::Idle,
            (0, 1, 0, 0) => Status::Working,
            (0, 2, 0, 0) => Status::NoPack,
            (0, 3, 0, 0) => Status::OffMap,
            (0, 4, offset, len) => Status::Fetch(offset, len as usize),
            (number @ 1.., 5, 0, 0) => Status::Refused(number),
            (number, status, ..) => panic!("a step told as {number}, {status}"),
        }
    }
}

#[derive(Clone, Copy, Debug, Default, PartialEq)]
#[repr(C)]
pub struct MatchTold {
    matched: u32,
    row: u16,
    col: u16,
    crc: u32,
    edges: u16,
    edge: u16,
    segment: u16,
    fraction: f32,
    forward: u32,
    offset_m: f32,
    z_dm: i32,
    class: u8,
    flags: u8,
    confidence: u8,
    ridden_m: f32,
}

impl MatchTold {
    fn words(&self) -> [u32; 14] {
        [
            self.matched,
            Key { row: self.row, col: self.col }.word(),
            self.crc,
            self.edges.into(),
            self.edge.into(),
            self.segment.into(),
            figure(self.fraction),
            self.forward,
            figure(self.offset_m),
            self.z_dm as u32,
            self.class.into(),
            self.flags.into(),
            self.confidence.into(),
            figure(self.ridden_m),
        ]
    }
}

#[repr(C)]
struct AheadTold {
    number: u32,
    generation: u32,
    at_ms: u64,
    matched: MatchTold,
    start_z_dm: i32,
    samples: [i16; AHEAD],
    len: usize,
    behind: [i16; BACK],
    behind_len: usize,
    behind_m: f32,
    end: u32,
    end_m: f32,
    confidence: u8,
    on_road: u32,
}

impl AheadTold {
    /// The words that an engine has of it.
    fn words(&self) -> Vec<u32> {
        let long = |z: &i16| i32::from(*z) as u32;
        let mut out = vec![self.generation, self.at_ms as u32, (self.at_ms >> 32) as u32];
        out.extend(self.matched.words());
        out.push(self.start_z_dm as u32);
        out.extend(self.samples.iter().map(long));
        out.push(self.len as u32);
        out.extend(self.behind.iter().map(long));
        out.extend([self.behind_len as u32, figure(self.behind_m), self.end, figure(self.end_m)]);
        out.push(self.confidence.into());
        out
    }
}

#[repr(C)]
struct HeaderTold {
    number: u32,
    known: u32,
    tile: u32,
    south: i32,
    west: i32,
    rows: u16,
    cols: u16,
    directory: u32,
    data: u32,
    total: u32,
    tiles: u32,
    created: u64,
    attribution_offset: u32,
    attribution_len: u32,
}

impl HeaderTold {
    fn header(&self) -> Header {
        Header {
            tile: self.tile,
            south: self.south,
            west: self.west,
            rows: self.rows,
            cols: self.cols,
            directory: self.directory,
            data: self.data,
            total: self.total,
            tiles: self.tiles,
            created: self.created,
            attribution_offset: self.attribution_offset,
            attribution_len: self.attribution_len,
        }
    }
}

#[repr(C)]
struct HeadingTold {
    number: u32,
    known: u32,
    degrees: f32,
}

#[repr(C)]
struct CountTold {
    number: u32,
    count: u32,
}

unsafe extern "C" {
    fn terrain_new(engine: &mut Engine, arena: *const u8, arena_len: usize, horizon_m: f32);
    fn terrain_fix(
        engine: &mut Engine,
        arena: *const u8,
        arena_len: usize,
        lat: i32,
        lon: i32,
        at_ms: u64,
    ) -> u32;
    fn terrain_lost(engine: &mut Engine, arena: *const u8, arena_len: usize) -> u32;
    fn terrain_reset(engine: &mut Engine, arena: *const u8, arena_len: usize) -> u32;
    fn terrain_step(engine: &mut Engine, arena: *const u8, arena_len: usize) -> StepTold;
    fn terrain_deliver(
        engine: &mut Engine,
        arena: *mut u8,
        arena_len: usize,
        failure: u32,
        bytes: *const u8,
        bytes_len: usize,
    ) -> StepTold;
    fn terrain_step_from(
        engine: &mut Engine,
        arena: *mut u8,
        arena_len: usize,
        pack: *const u8,
        pack_len: usize,
    ) -> StepTold;
    fn terrain_ahead(engine: &Engine, arena: *const u8, arena_len: usize) -> AheadTold;
    fn terrain_header(engine: &Engine, arena: *const u8, arena_len: usize) -> HeaderTold;
    fn terrain_heading(engine: &Engine, arena: *const u8, arena_len: usize) -> HeadingTold;
    fn terrain_loads(engine: &Engine, arena: *const u8, arena_len: usize) -> CountTold;
    fn terrain_steps(engine: &Engine, arena: *const u8, arena_len: usize) -> CountTold;
}

// SAFETY, of every call here: pointers and counts are those of a slice or a reference, what is
// written is lent for writing, and no two of them overlap.

pub fn new(engine: &mut Engine, arena: &[u8], horizon_m: f32) {
    unsafe { terrain_new(engine, arena.as_ptr(), arena.len(), horizon_m) }
}

pub fn fix(engine: &mut Engine, arena: &[u8], fix: Point, at_ms: u64) -> u32 {
    unsafe { terrain_fix(engine, arena.as_ptr(), arena.len(), fix.lat, fix.lon, at_ms) }
}

pub fn lost(engine: &mut Engine, arena: &[u8]) -> u32 {
    unsafe { terrain_lost(engine, arena.as_ptr(), arena.len()) }
}

pub fn reset(engine: &mut Engine, arena: &[u8]) -> u32 {
    unsafe { terrain_reset(engine, arena.as_ptr(), arena.len()) }
}

pub fn step(engine: &mut Engine, arena: &[u8]) -> Status {
    unsafe { terrain_step(engine, arena.as_ptr(), arena.len()) }.status()
}

pub fn deliver(engine: &mut Engine, arena: &mut [u8], failure: u32, bytes: &[u8]) -> Status {
    let (to, len) = (arena.as_mut_ptr(), arena.len());
    unsafe { terrain_deliver(engine, to, len, failure, bytes.as_ptr(), bytes.len()) }.status()
}

pub fn step_from(engine: &mut Engine, arena: &mut [u8], pack: &[u8]) -> Status {
    let (to, len) = (arena.as_mut_ptr(), arena.len());
    unsafe { terrain_step_from(engine, to, len, pack.as_ptr(), pack.len()) }.status()
}

/// The numbers of the calls that only read: road ahead, header, heading, loads, steps.
pub fn reads(engine: &Engine, arena: &[u8]) -> [u32; 5] {
    let (at, len) = (arena.as_ptr(), arena.len());
    unsafe {
        [
            terrain_ahead(engine, at, len).number,
            terrain_header(engine, at, len).number,
            terrain_heading(engine, at, len).number,
            terrain_loads(engine, at, len).number,
            terrain_steps(engine, at, len).number,
        ]
    }
}

/// Whether they answer what the words say.
pub fn reads_agree(w: &Engine, arena: &[u8]) -> bool {
    let (lent, len) = (arena.as_ptr(), arena.len());
    let (ahead, header) = unsafe { (terrain_ahead(w, lent, len), terrain_header(w, lent, len)) };
    let heading = unsafe { terrain_heading(w, lent, len) };
    let [loads, steps] = unsafe { [terrain_loads(w, lent, len), terrain_steps(w, lent, len)] };
    let known = w[at::PHASE] == 1;
    let words = if known { w[at::HEADER..at::SLOTS].try_into().expect("13") } else { [0; 13] };
    let on_road = w[at::MATCHED] == 1 && w[at::LEN] > 1;
    ahead.number == 0
        && ahead.words() == w[at::GENERATION..at::FAILURES]
        && ahead.on_road == on_road.into()
        && (header.number, header.known) == (0, known.into())
        && header.header().words() == words
        && [heading.number, heading.known, figure(heading.degrees)]
            == [0, w[at::HEADING], w[at::HEADING + 1]]
        && (loads.number, loads.count) == (0, w[at::LOADS])
        && (steps.number, steps.count) == (0, w[at::STEPS])
}

// ---- the parts

/// What the cache holds for a tile: the run's first page and its length.
pub enum Lookup {
    Ready(usize, usize),
    Missing,
    Absent,
    Refused(u32),
}

pub enum Request {
    Settled,
    Read(u64, usize),
    Refused(u32),
}

pub enum Progress {
    Done,
    More,
    Failed(u32),
    Refused(u32),
}

pub enum Outcome {
    Found(Matched),
    Nothing,
    Need(Key),
    Refused(u32),
}

#[derive(Clone, Copy, Default)]
pub struct Prediction {
    pub len: usize,
    pub behind: usize,
    pub behind_m: f32,
    pub end: u32,
    pub end_m: f32,
    pub confidence: u8,
}

pub enum Road {
    Road(Prediction),
    Need(Key),
    Rematch,
    Refused(u32),
}

#[derive(Clone, Copy, Debug, Default, PartialEq)]
pub struct Matched(MatchTold);

impl Matched {
    pub fn of(w: &[u32; 13]) -> Self {
        Self::told(1, w[6], w)
    }

    /// With any flag and direction, which may be none that there are.
    pub fn told(matched: u32, forward: u32, w: &[u32; 13]) -> Self {
        let key = Key::of(w[0]);
        Self(MatchTold {
            matched,
            row: key.row,
            col: key.col,
            crc: w[1],
            edges: w[2] as u16,
            edge: w[3] as u16,
            segment: w[4] as u16,
            fraction: f32::from_bits(w[5]),
            forward,
            offset_m: f32::from_bits(w[7]),
            z_dm: w[8] as i32,
            class: w[9] as u8,
            flags: w[10] as u8,
            confidence: w[11] as u8,
            ridden_m: f32::from_bits(w[12]),
        })
    }

    pub fn words(self) -> [u32; 13] {
        self.0.words()[1..].try_into().expect("13 words")
    }
}

#[repr(C)]
struct LookupTold {
    number: u32,
    lookup: u32,
    first: usize,
    len: usize,
}

#[repr(C)]
struct RequestTold {
    number: u32,
    request: u32,
    offset: u64,
    len: usize,
}

#[repr(C)]
struct ProgressTold {
    number: u32,
    progress: u32,
}

impl ProgressTold {
    fn progress(self) -> Progress {
        match (self.number, self.progress) {
            (0, 0) => Progress::Done,
            (0, 1) => Progress::More,
            (number @ 1.., 2) => Progress::Failed(number),
            (number @ 1.., 3) => Progress::Refused(number),
            (number, tag) => panic!("a load told as {number}, {tag}"),
        }
    }
}

#[repr(C)]
struct CacheCount {
    number: u32,
    count: usize,
}

impl CacheCount {
    fn count(self) -> Result<usize, u32> {
        match (self.number, self.count) {
            (0, count) => Ok(count),
            (number, 0) => Err(number),
            (number, count) => panic!("a count told as {number}, {count}"),
        }
    }
}

unsafe extern "C" {
    fn terrain_cache_capacity(w: &Engine, arena: *const u8, arena_len: usize) -> CacheCount;
    fn terrain_cache_loads(w: &Engine, arena: *const u8, arena_len: usize) -> CacheCount;
    fn terrain_cache_pages(
        w: &Engine,
        arena: *const u8,
        arena_len: usize,
        header: Header,
        key: Key,
    ) -> CacheCount;
    fn terrain_cache_get(
        w: &mut Engine,
        arena: *const u8,
        arena_len: usize,
        header: Header,
        key: Key,
    ) -> LookupTold;
    fn terrain_cache_fetch(
        w: &Engine,
        arena: *const u8,
        arena_len: usize,
        header: Header,
        key: Key,
    ) -> RequestTold;
    fn terrain_cache_load(
        w: &mut Engine,
        arena: *mut u8,
        arena_len: usize,
        header: Header,
        key: Key,
        failure: u32,
        bytes: *const u8,
        bytes_len: usize,
    ) -> ProgressTold;
    fn terrain_cache_load_from(
        w: &mut Engine,
        arena: *mut u8,
        arena_len: usize,
        header: Header,
        key: Key,
        pack: *const u8,
        pack_len: usize,
    ) -> ProgressTold;
    fn terrain_cache_clear(w: &mut Engine, arena: *const u8, arena_len: usize) -> u32;
}

pub fn header_parse(sector: &[u8; 512]) -> Option<Header> {
    ffi_format::header_parse(sector).ok().map(|words| Header::of(&words))
}

pub fn cache_get(w: &mut Engine, arena: &[u8], header: Header, key: Key) -> Lookup {
    let told = unsafe { terrain_cache_get(w, arena.as_ptr(), arena.len(), header, key) };
    match (told.number, told.lookup, told.first, told.len) {
        (0, 0, first, len) => Lookup::Ready(first, len),
        (0, 1, 0, 0) => Lookup::Missing,
        (0, 2, 0, 0) => Lookup::Absent,
        (number @ 1.., 3, 0, 0) => Lookup::Refused(number),
        (number, tag, ..) => panic!("a lookup told as {number}, {tag}"),
    }
}

pub fn cache_fetch(w: &Engine, arena: &[u8], header: Header, key: Key) -> Request {
    let told = unsafe { terrain_cache_fetch(w, arena.as_ptr(), arena.len(), header, key) };
    match (told.number, told.request, told.offset, told.len) {
        (0, 0, 0, 0) => Request::Settled,
        (0, 1, offset, len) => Request::Read(offset, len),
        (number @ 1.., 2, 0, 0) => Request::Refused(number),
        (number, tag, ..) => panic!("a request told as {number}, {tag}"),
    }
}

pub fn cache_load(
    w: &mut Engine,
    arena: &mut [u8],
    header: Header,
    key: Key,
    failure: u32,
    bytes: &[u8],
) -> Progress {
    let (to, len) = (arena.as_mut_ptr(), arena.len());
    let (at, count) = (bytes.as_ptr(), bytes.len());
    unsafe { terrain_cache_load(w, to, len, header, key, failure, at, count) }.progress()
}

pub fn cache_load_from(
    w: &mut Engine,
    arena: &mut [u8],
    header: Header,
    key: Key,
    pack: &[u8],
) -> Progress {
    let (to, len) = (arena.as_mut_ptr(), arena.len());
    let (at, count) = (pack.as_ptr(), pack.len());
    unsafe { terrain_cache_load_from(w, to, len, header, key, at, count) }.progress()
}

pub fn cache_clear(w: &mut Engine, arena: &[u8]) -> u32 {
    unsafe { terrain_cache_clear(w, arena.as_ptr(), arena.len()) }
}

pub fn cache_pages(w: &Engine, arena: &[u8], header: Header, key: Key) -> Result<usize, u32> {
    unsafe { terrain_cache_pages(w, arena.as_ptr(), arena.len(), header, key) }.count()
}

pub fn cache_capacity(w: &Engine, arena: &[u8]) -> Result<usize, u32> {
    unsafe { terrain_cache_capacity(w, arena.as_ptr(), arena.len()) }.count()
}

pub fn cache_loads(w: &Engine, arena: &[u8]) -> Result<usize, u32> {
    unsafe { terrain_cache_loads(w, arena.as_ptr(), arena.len()) }.count()
}

#[repr(C)]
struct Near {
    number: u32,
    len: usize,
    keys: [Key; 4],
}

#[repr(C)]
struct CurrentTold {
    number: u32,
    matched: MatchTold,
}

/// A heading that is given: 0 none, 1 degrees.
#[repr(C)]
pub struct Given {
    pub known: u32,
    pub degrees: f32,
}

/// What a match tells.
#[repr(C)]
pub struct Updated {
    number: u32,
    outcome: u32,
    matched: MatchTold,
    key: Key,
}

#[repr(C)]
struct Predicted {
    number: u32,
    outcome: u32,
    key: Key,
    len: usize,
    behind: usize,
    behind_m: f32,
    end: u32,
    end_m: f32,
    confidence: u8,
}

impl Predicted {
    fn is_empty(&self) -> bool {
        let figures = [self.behind_m, self.end_m].map(f32::to_bits);
        (self.len, self.behind, figures, self.end, self.confidence) == (0, 0, [0, 0], 0, 0)
    }
}

unsafe extern "C" {
    safe fn terrain_nearby(header: Header, fix: Point) -> Near;
    safe fn terrain_matcher_reset(matcher: &mut MatcherWords);
    safe fn terrain_matcher_current(matcher: &MatcherWords) -> CurrentTold;
    fn terrain_matcher_update(
        matcher: &mut MatcherWords,
        w: &mut Engine,
        arena: *const u8,
        arena_len: usize,
        header: Header,
        fix: Point,
        heading: Given,
    ) -> Updated;
    fn terrain_predict(
        w: &mut Engine,
        arena: *const u8,
        arena_len: usize,
        header: Header,
        start: MatchTold,
        horizon_m: f32,
        samples: &mut [i16; AHEAD],
        behind: &mut [i16; BACK],
    ) -> Predicted;
}

/// No key, and no match, stand in an answer that has none.
const NO_KEY: Key = Key { row: 0, col: 0 };

fn is_none(m: &MatchTold) -> bool {
    m.words() == [0; 14]
}

pub fn matcher_reset(m: &mut MatcherWords) {
    terrain_matcher_reset(m);
}

pub fn matcher_current(m: &MatcherWords) -> Result<Option<Matched>, u32> {
    let told = terrain_matcher_current(m);
    match (told.number, is_none(&told.matched)) {
        (0, false) => Ok(Some(Matched(told.matched))),
        (NONE, true) => Ok(None),
        (number @ 1..NONE, true) => Err(number),
        (number, _) => panic!("a current match told as {number}"),
    }
}

pub fn matcher_update(
    m: &mut MatcherWords,
    w: &mut Engine,
    arena: &[u8],
    header: Header,
    fix: Point,
    heading: Option<f32>,
) -> Outcome {
    let given = Given { known: heading.is_some().into(), degrees: heading.unwrap_or(0.0) };
    updated(m, w, arena, header, fix, given)
}

/// The same with a heading as it is given, which may be none that there is.
pub fn updated(
    m: &mut MatcherWords,
    w: &mut Engine,
    arena: &[u8],
    header: Header,
    fix: Point,
    heading: Given,
) -> Outcome {
    let told = update_told(m, w, arena, header, fix, heading);
    let empty = is_none(&told.matched);
    match (told.number, told.outcome) {
        (0, 0) if !empty && told.key == NO_KEY => Outcome::Found(Matched(told.matched)),
        (NONE, 1) if empty && told.key == NO_KEY => Outcome::Nothing,
        (5, 2) if empty => Outcome::Need(told.key),
        (number @ 1..NONE, 3) if empty && told.key == NO_KEY => Outcome::Refused(number),
        (number, tag) => panic!("an update told as {number}, {tag}"),
    }
}

/// The call by itself, its answer as it is told, for timing.
pub fn update_told(
    m: &mut MatcherWords,
    w: &mut Engine,
    arena: &[u8],
    header: Header,
    fix: Point,
    heading: Given,
) -> Updated {
    let (at, len) = (arena.as_ptr(), arena.len());
    unsafe { terrain_matcher_update(m, w, at, len, header, fix, heading) }
}

/// The keys, no key past the last.
pub fn nearby(header: Header, fix: Point) -> Result<[u32; 4], u32> {
    let told = terrain_nearby(header, fix);
    let behind = told.keys.iter().skip(told.len);
    assert!(behind.into_iter().all(|&key| key == NO_KEY), "keys behind the last");
    if told.number != 0 {
        assert_eq!(told.len, 0, "keys of a refused call");
        return Err(told.number);
    }
    let word = |n: usize| if n < told.len { told.keys[n].word() } else { u32::MAX };
    Ok(std::array::from_fn(word))
}

pub fn predict(
    w: &mut Engine,
    arena: &[u8],
    header: Header,
    start: Matched,
    horizon: f32,
    samples: &mut [i16; AHEAD],
    behind: &mut [i16; BACK],
) -> Road {
    let (at, len) = (arena.as_ptr(), arena.len());
    let told = unsafe { terrain_predict(w, at, len, header, start.0, horizon, samples, behind) };
    match (told.number, told.outcome) {
        (0, 0) if told.key == NO_KEY => Road::Road(Prediction {
            len: told.len,
            behind: told.behind,
            behind_m: told.behind_m,
            end: told.end,
            end_m: told.end_m,
            confidence: told.confidence,
        }),
        (5, 1) if told.is_empty() => Road::Need(told.key),
        (6, 2) if told.is_empty() && told.key == NO_KEY => Road::Rematch,
        (number @ 1.., 3) if told.is_empty() && told.key == NO_KEY => Road::Refused(number),
        (number, tag) => panic!("a road told as {number}, {tag}"),
    }
}
