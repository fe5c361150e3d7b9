//! The look-ahead as a bounded state machine.
//!
//! Feed fixes with [`Lookahead::fix`]; call [`Lookahead::step`] often. Each step does one thing:
//! reads the header, loads one chunk of a tile, matches the newest fix, or predicts the road ahead.
use crate::ffi;
use crate::matcher::Matched;
use crate::pack::{Error, Header, Source, TileKey};
pub use crate::predict::{BEHIND_SAMPLES, End, MAX_SAMPLES, SAMPLE_M};
use crate::tile::TileId;
use core::fmt;

/// The longest read that a step asks for.
const LONGEST: usize = 2048;

/// A GPS position, micro-degrees, at a monotonic time.
#[derive(Clone, Copy, Debug, PartialEq, Eq)]
pub struct Fix {
    pub lat: i32,
    pub lon: i32,
    pub at_ms: u64,
}

impl Fix {
    /// From the 1e-7 degree integers the GPS reports.
    ///
    /// ```
    /// use terrain::engine::Fix;
    /// let fix = Fix::from_e7(-15, 683_567_899, 7);
    /// assert_eq!(fix, Fix { lat: -1, lon: 68_356_789, at_ms: 7 });
    /// ```
    pub fn from_e7(lat_e7: i32, lon_e7: i32, at_ms: u64) -> Self {
        Self { lat: lat_e7 / 10, lon: lon_e7 / 10, at_ms }
    }
}

/// The road ahead, as of one fix.
#[derive(Clone, Debug, PartialEq)]
pub struct Ahead {
    /// Increments with every new result.
    pub generation: u32,
    /// The fix this was computed from.
    pub at_ms: u64,
    pub matched: Option<Matched>,
    /// Map elevation at the rider, decimetres.
    pub start_z_dm: i32,
    /// Elevation every `SAMPLE_M` from the rider, relative to `start_z_dm`.
    pub samples: [i16; MAX_SAMPLES],
    pub len: usize,
    /// Elevation every `SAMPLE_M` back from the rider along the matched
    /// road, relative to `start_z_dm`, and the last one at `behind_m`: the
    /// road ridden on it in this direction (`Matched::ridden_m`), as far as
    /// the matched edge goes, up to 200 m.
    pub behind: [i16; BEHIND_SAMPLES],
    pub behind_len: usize,
    pub behind_m: f32,
    pub end: End,
    pub end_m: f32,
    /// 0..100: the match and every decision along the way.
    pub confidence: u8,
}

impl Default for Ahead {
    fn default() -> Self {
        Self {
            generation: 0,
            at_ms: 0,
            matched: None,
            start_z_dm: 0,
            samples: [0; MAX_SAMPLES],
            len: 0,
            behind: [0; BEHIND_SAMPLES],
            behind_len: 0,
            behind_m: 0.0,
            end: End::Uncertain,
            end_m: 0.0,
            confidence: 0,
        }
    }
}

impl Ahead {
    /// The rider is on a mapped road and its profile is known.
    pub fn on_road(&self) -> bool {
        self.matched.is_some() && self.len > 1
    }
}

#[derive(Clone, Copy, Debug, PartialEq, Eq)]
pub enum Status {
    /// Nothing to do until the next fix.
    Idle,
    /// More work queued; call again.
    Working,
    /// No readable pack: the caller falls back to map-free behaviour.
    NoPack,
    /// The newest fix is outside the pack's grid.
    OffMap,
}

/// The engine: its words, the arena, and what it published last.
pub struct Lookahead<'a> {
    words: ffi::Engine,
    arena: &'a mut [u8],
    ahead: Ahead,
    header: Option<Header>,
    /// Diagnostics: steps that did work.
    pub steps: u32,
}

impl fmt::Debug for Lookahead<'_> {
    fn fmt(&self, f: &mut fmt::Formatter<'_>) -> fmt::Result {
        let mut told = f.debug_struct("Lookahead");
        told.field("ahead", &self.ahead).field("header", &self.header).finish_non_exhaustive()
    }
}

impl<'a> Lookahead<'a> {
    /// A look-ahead caching tiles in `arena` and following the road for
    /// `horizon_m` (at most 10 km).
    ///
    /// ```
    /// use terrain::engine::{Ahead, Lookahead};
    /// let mut arena = [0; 8192];
    /// let engine = Lookahead::new(&mut arena, 10_000.0);
    /// assert_eq!(*engine.ahead(), Ahead::default());
    /// assert_eq!((engine.header(), engine.heading(), engine.loads()), (None, None, 0));
    /// ```
    pub fn new(arena: &'a mut [u8], horizon_m: f32) -> Self {
        let mut words = [0; ffi::WORDS];
        ffi::new(&mut words, arena, horizon_m);
        Self { words, arena, ahead: Ahead::default(), header: None, steps: 0 }
    }

    pub fn ahead(&self) -> &Ahead {
        &self.ahead
    }

    pub fn header(&self) -> Option<&Header> {
        self.header.as_ref()
    }

    /// Tiles loaded since start.
    pub fn loads(&self) -> u32 {
        ffi::loads(&self.words, self.arena).count
    }

    /// Forget the pack and every cached tile, for example after the volume
    /// was rewritten.
    pub fn reset(&mut self) {
        ffi::reset(&mut self.words, self.arena);
        self.read();
    }

    /// Bearing of travel from recent fixes, if the rider moved recently.
    ///
    /// ```
    /// use terrain::engine::{Fix, Lookahead};
    /// let mut engine = Lookahead::new(&mut [], 10_000.0);
    /// engine.fix(Fix { lat: 68_350_000, lon: 18_820_000, at_ms: 1_000 });
    /// assert_eq!(engine.heading(), None);
    /// engine.fix(Fix { lat: 68_351_000, lon: 18_820_000, at_ms: 9_000 });
    /// assert_eq!(engine.heading(), Some(0.0));
    /// ```
    pub fn heading(&self) -> Option<f32> {
        let heading = ffi::heading(&self.words, self.arena);
        (heading.known == 1).then_some(heading.degrees)
    }

    /// A new fix. Fixes that do not change do nothing, nor do those beyond ±360 degrees, which the
    /// engine refuses with number 8.
    pub fn fix(&mut self, fix: Fix) {
        ffi::fix(&mut self.words, self.arena, fix.lat, fix.lon, fix.at_ms);
    }

    /// The fix stream stopped (no fix or stale): forget the road.
    pub fn lost(&mut self) {
        ffi::lost(&mut self.words, self.arena);
        self.read();
    }

    /// One bounded unit of work, and the read that it asks for.
    pub fn step(&mut self, source: &mut impl Source) -> Status {
        let mut told = ffi::step(&mut self.words, self.arena);
        if told.status == ffi::FETCH {
            told = self.deliver(source, told);
        }
        self.read();
        match told.status {
            ffi::IDLE => Status::Idle,
            ffi::WORKING => Status::Working,
            ffi::OFF_MAP => Status::OffMap,
            // A refused call is none of these, and can't be met: the words are the engine's own, and
            // the arena is lent to it alone.
            _ => Status::NoPack,
        }
    }

    /// The open fetch answered from the source. None is longer than the buffer; one that were would
    /// count as missed.
    fn deliver(&mut self, source: &mut impl Source, fetch: ffi::Step) -> ffi::Step {
        let mut chunk = [0; LONGEST];
        let buf = chunk.get_mut(..fetch.len as usize).unwrap_or_default();
        let read = if buf.is_empty() { Err(Error::Media) } else { source.read(fetch.offset, buf) };
        let (failure, bytes) = match read {
            Ok(()) => (0, &*buf),
            Err(Error::Media) => (1, &[][..]),
            Err(_) => (2, &[][..]),
        };
        ffi::deliver(&mut self.words, self.arena, failure, bytes)
    }

    /// What the engine published last.
    fn read(&mut self) {
        self.ahead = ahead(&ffi::ahead(&self.words, self.arena));
        self.header = header(&ffi::header(&self.words, self.arena));
        self.steps = ffi::steps(&self.words, self.arena).count;
    }
}

fn matched(m: &ffi::Match) -> Option<Matched> {
    (m.matched == 1).then(|| Matched {
        tile: TileId { key: TileKey { row: m.row, col: m.col }, crc: m.crc, edges: m.edges },
        edge: m.edge,
        segment: m.segment,
        fraction: m.fraction,
        forward: (m.forward > 0).then_some(m.forward == 2),
        offset_m: m.offset_m,
        z_dm: m.z_dm,
        class: m.class,
        flags: m.flags,
        confidence: m.confidence,
        ridden_m: m.ridden_m,
    })
}

fn end(tag: u32) -> End {
    match tag {
        0 => End::Horizon,
        1 => End::Fork,
        2 => End::DeadEnd,
        3 => End::MapEdge,
        4 => End::Uncertain,
        _ => End::Memory,
    }
}

fn ahead(a: &ffi::Ahead) -> Ahead {
    Ahead {
        generation: a.generation,
        at_ms: a.at_ms,
        matched: matched(&a.matched),
        start_z_dm: a.start_z_dm,
        samples: a.samples,
        len: a.len,
        behind: a.behind,
        behind_len: a.behind_len,
        behind_m: a.behind_m,
        end: end(a.end),
        end_m: a.end_m,
        confidence: a.confidence,
    }
}

fn header(h: &ffi::Header) -> Option<Header> {
    (h.known == 1).then_some(Header {
        tile: h.tile,
        south: h.south,
        west: h.west,
        rows: h.rows,
        cols: h.cols,
        directory: h.directory,
        data: h.data,
        total: h.total,
        tiles: h.tiles,
        created: h.created,
        attribution_offset: h.attribution_offset,
        attribution_len: h.attribution_len,
    })
}
