//! Scripts run on the Rust's engine, whose angles are the port's. What the Rust doesn't have is kept
//! beside it: the open fetch and the pack in use. A step that would read opens a fetch and the Rust
//! does nothing; the delivery is the Rust's whole step. What document 01 refuses is refused here.
use super::script::*;
use crate::cache::script::{Ending, NO_KEY, Record, ends};
use crate::matching::oracle::is_point;
use crate::matching::script::{figure, key_word, of_maybe, tile_key};
use oracle_angles::cache::{CHUNK, Cache, Lookup, PAGE_BYTES};
use oracle_angles::engine::{Ahead, Fix, Lookahead, Pack, Status};
use oracle_angles::geo::Point;
use oracle_angles::pack::{ENTRY_BYTES, Error, HEADER_BYTES, Header, Source, TileKey};
use oracle_angles::tile::crc32;

/// What a step reads: the header, an entry or a chunk, and where.
#[derive(Clone, Copy, Debug, PartialEq)]
pub struct Read {
    pub what: u32,
    pub offset: u64,
    pub len: usize,
}

impl Read {
    fn ending(self) -> Ending {
        [FETCH, self.offset as u32, (self.offset >> 32) as u32, self.len as u32]
    }
}

/// Answers the reads of one call, and keeps which they were.
struct Card<'p> {
    pack: &'p [u8],
    failure: u32,
    reads: Vec<(u64, usize)>,
}

impl Source for Card<'_> {
    fn read(&mut self, offset: u64, buf: &mut [u8]) -> Result<(), Error> {
        self.reads.push((offset, buf.len()));
        match self.failure {
            0 => self.pack.read(offset, buf),
            1 => Err(Error::Media),
            _ => Err(Error::Range),
        }
    }
}

pub struct Oracle<'a> {
    pub engine: Lookahead<'a>,
    packs: &'a [Vec<u8>],
    used: usize,
    pub open: Option<Read>,
    /// The header of the pack in use was read, also where the pack has failed since.
    was_read: bool,
    /// The arena as it last was, and its sum: few records write to it.
    summed: (Vec<u8>, u32),
}

fn of_status(status: Status) -> Ending {
    ends(match status {
        Status::Idle => IDLE,
        Status::Working => WORKING,
        Status::NoPack => NO_PACK,
        Status::OffMap => OFF_MAP,
    })
}

fn of_load(result: Result<bool, Error>) -> Ending {
    match result {
        Ok(done) => ends(if done { LOADED } else { MORE }),
        Err(Error::Media) => [FAILED, 1, 0, 0],
        Err(Error::Range) => [FAILED, 2, 0, 0],
        Err(Error::Unsupported) => [FAILED, 3, 0, 0],
        Err(Error::Corrupt) => [FAILED, 4, 0, 0],
    }
}

fn refused(number: u32) -> Ending {
    [REFUSED, number, 0, 0]
}

/// Whether a load of the key would do more than find it ready or missing.
fn is_absent(cache: &Cache, key: TileKey) -> bool {
    let ready = |slot: &oracle_angles::cache::Slot| slot.ready && slot.key == Some(key);
    !cache.missing.contains(&Some(key)) && !cache.slots[..cache.count].iter().any(ready)
}

impl<'a> Oracle<'a> {
    pub fn new(packs: &'a [Vec<u8>], arena: &'a mut [u8]) -> Self {
        let summed = (arena.to_vec(), crc32(arena));
        let engine = Lookahead::new(arena, 10_000.0);
        Self { engine, packs, used: 0, open: None, was_read: false, summed }
    }

    pub fn pack(&self) -> &'a [u8] {
        &self.packs[self.used]
    }

    pub fn answer(&mut self, record: &Record) -> Answer {
        let ending = self.ending(record);
        assert!(self.open.is_none() || self.open == self.next_read(), "a fetch that stays right");
        self.told(ending)
    }

    fn ending(&mut self, record: &Record) -> Ending {
        match record[0] {
            NEW => self.renew(record[1] as usize, f32::from_bits(record[2])),
            FIX => self.fix(record),
            LOST => {
                self.engine.lost();
                ends(DONE)
            }
            RESET => self.reset(record[1] as usize),
            STEP => self.step(),
            DELIVER => self.deliver(record[1]),
            STEP_FROM => {
                self.open = None;
                self.run(0)
            }
            GET | LOAD_FROM => self.direct(record[0], tile_key(record[1])),
            CLEAR => {
                self.engine.cache.clear();
                self.open = None;
                ends(CLEARED)
            }
            SET => {
                self.set(record);
                ends(IS_SET)
            }
            _ => ends(OTHER),
        }
    }

    /// A count as a record sets it.
    fn set(&mut self, record: &Record) {
        let [_, which, value, page, ..] = *record;
        let (e, page) = (&mut self.engine, page as usize);
        match which {
            CLOCK => e.cache.clock.set(value),
            USED => e.cache.used.iter().skip(page).take(1).for_each(|age| age.set(value)),
            LOADS => e.cache.loads = value,
            STEPS => e.steps = value,
            GENERATION => e.ahead.generation = value,
            _ => {}
        }
    }

    /// The arena stays whole here; the pages alone say how much of it is lent.
    fn renew(&mut self, pages: usize, horizon: f32) -> Ending {
        let arena = std::mem::take(&mut self.engine.cache.arena);
        self.engine = Lookahead::new(arena, horizon);
        self.engine.cache.count = self.engine.cache.count.min(pages);
        (self.open, self.was_read) = (None, false);
        ends(DONE)
    }

    fn fix(&mut self, record: &Record) -> Ending {
        let [_, lat, lon, low, high, _] = *record;
        let (lat, lon) = (lat as i32, lon as i32);
        if !is_point(Point { lat, lon }) {
            return refused(8);
        }
        self.engine.fix(Fix { lat, lon, at_ms: u64::from(low) | u64::from(high) << 32 });
        ends(DONE)
    }

    fn reset(&mut self, pack: usize) -> Ending {
        self.engine.reset();
        (self.used, self.open, self.was_read) = (pack, None, false);
        ends(DONE)
    }

    /// The read that the Rust's next step would make.
    pub fn next_read(&self) -> Option<Read> {
        match self.engine.pack {
            Pack::Failed => None,
            Pack::Unread => Some(Read { what: 1, offset: 0, len: HEADER_BYTES }),
            Pack::Ready(header) => self.next_part(&header),
        }
    }

    fn next_part(&self, header: &Header) -> Option<Read> {
        let (cache, key) = (&self.engine.cache, self.engine.need?);
        if cache.count == 0 || !is_absent(cache, key) {
            return None;
        }
        let under_way = cache.loading.filter(|loading| loading.key == key);
        Some(match under_way {
            None => Read { what: 2, offset: header.entry(key), len: ENTRY_BYTES },
            Some(l) => {
                let offset = u64::from(l.offset) + l.done as u64;
                Read { what: 3, offset, len: (l.len - l.done).min(CHUNK) }
            }
        })
    }

    fn step(&mut self) -> Ending {
        self.open = self.next_read();
        match self.open {
            Some(read) => read.ending(),
            None => self.run(0),
        }
    }

    /// Whether the pack has all bytes of a read.
    pub fn has(&self, read: Read) -> bool {
        read.offset + read.len as u64 <= self.pack().len() as u64
    }

    fn deliver(&mut self, how: u32) -> Ending {
        if self.open.is_none() || how > PAST {
            return refused(11);
        }
        self.open = None;
        self.run(how)
    }

    /// The Rust's step, held to the read that was foreseen.
    fn run(&mut self, failure: u32) -> Ending {
        let foreseen: Vec<_> =
            self.next_read().iter().map(|read| (read.offset, read.len)).collect();
        let mut card = Card { pack: self.pack(), failure, reads: Vec::new() };
        let status = self.engine.step(&mut card);
        assert_eq!(card.reads, foreseen, "the read of a step");
        self.was_read |= self.engine.header().is_some();
        of_status(status)
    }

    /// Whether calls on the cache can be foreseen: what header a pack has that failed after its
    /// header was read the Rust doesn't say.
    pub fn is_direct(&self) -> bool {
        self.was_read == self.engine.header().is_some()
    }

    /// A call on the cache. A header that was never read is of zeros, which 12 refuses.
    fn direct(&mut self, kind: u32, key: TileKey) -> Ending {
        assert!(self.is_direct(), "a call that can be foreseen");
        let Some(&header) = self.engine.header() else {
            return refused(12);
        };
        if key.row >= header.rows || key.col >= header.cols {
            return refused(9);
        }
        if kind == GET {
            return self.get(key);
        }
        if is_absent(&self.engine.cache, key) {
            self.open = None;
        }
        let mut card = Card { pack: self.pack(), failure: 0, reads: Vec::new() };
        of_load(self.engine.cache.load(&mut card, &header, key))
    }

    fn get(&self, key: TileKey) -> Ending {
        let cache = &self.engine.cache;
        let page = cache.slots[..cache.count].iter().position(|s| s.ready && s.key == Some(key));
        match cache.get(key) {
            Lookup::Missing => ends(MISSING),
            Lookup::Absent => ends(ABSENT),
            Lookup::Ready(_) => {
                let page = page.expect("the page of a tile that was found");
                [READY, page as u32, cache.slots[page].len as u32, 0]
            }
        }
    }

    /// The answer to a record that ended so, and the state as it is.
    fn told(&mut self, ending: Ending) -> Answer {
        let arena = &self.engine.cache.arena;
        if self.summed.0 != **arena {
            self.summed = (arena.to_vec(), crc32(arena));
        }
        let e = &self.engine;
        let ages: Vec<u8> = e.cache.used.iter().flat_map(|age| age.get().to_le_bytes()).collect();
        let words = ending.into_iter().chain([e.steps, e.loads(), e.ahead().generation]);
        let words = words.chain(of_header(e.header())).chain(of_heading(e));
        let words = words.chain([e.cache.clock.get(), crc32(&ages)]).chain(of_road(e.ahead()));
        let open = self.open.map_or(0, |read| read.what);
        let words = words.chain(of_work(e)).chain([self.summed.1, open]).chain(of_fix(e.fix));
        let head = words.chain([0; 9]).collect::<Vec<_>>().try_into().expect("64 words");
        let heights = [&e.ahead().samples[..], &e.ahead().behind].concat();
        Answer { head, heights: heights.try_into().expect("512 heights") }
    }

    /// Pages that the arena has.
    pub fn pages(&self) -> usize {
        self.engine.cache.arena.len() / PAGE_BYTES
    }
}

fn two(n: u64) -> [u32; 2] {
    [n as u32, (n >> 32) as u32]
}

/// Whether the header is known, and the sum of its fields.
fn of_header(header: Option<&Header>) -> [u32; 2] {
    let Some(h) = header else {
        return [0, 0];
    };
    let [low, high] = two(h.created);
    let (south, west, rows, cols) = (h.south as u32, h.west as u32, h.rows.into(), h.cols.into());
    let (offset, len) = (h.attribution_offset, h.attribution_len);
    #[rustfmt::skip]
    let words = [h.tile, south, west, rows, cols, h.directory, h.data, h.total, h.tiles, low, high, offset, len, 0];
    [1, crc32(&words.map(u32::to_le_bytes).concat())]
}

fn of_heading(e: &Lookahead) -> [u32; 2] {
    e.heading().map_or([0, 0], |degrees| [1, figure(degrees)])
}

/// The published road's words before its heights.
fn of_road(a: &Ahead) -> Vec<u32> {
    let matched = [u32::from(a.matched.is_some())].into_iter().chain(of_maybe(a.matched.as_ref()));
    let road = [
        a.start_z_dm as u32,
        a.len as u32,
        a.behind_len as u32,
        figure(a.behind_m),
        a.end as u32,
        figure(a.end_m),
        a.confidence.into(),
    ];
    two(a.at_ms).into_iter().chain(matched).chain(road).collect()
}

/// Phase, failures, what is due and what is under way.
fn of_work(e: &Lookahead) -> Vec<u32> {
    let phase = match e.pack {
        Pack::Unread => 0,
        Pack::Ready(_) => 1,
        Pack::Failed => 2,
    };
    let [low, high] = two(e.last_predict_ms.unwrap_or(0));
    let [since_low, since_high] = two(e.heading.map_or(0, |(_, at)| at));
    vec![
        phase,
        e.failures.into(),
        e.match_due.into(),
        e.predict_due.into(),
        e.last_predict_ms.is_some().into(),
        low,
        high,
        e.need.map_or(NO_KEY, key_word),
        e.reloads.into(),
        e.history_len as u32,
        since_low,
        since_high,
    ]
}

fn of_fix(fix: Option<Fix>) -> [u32; 5] {
    fix.map_or([0; 5], |fix| {
        let [low, high] = two(fix.at_ms);
        [1, fix.lat as u32, fix.lon as u32, low, high]
    })
}
