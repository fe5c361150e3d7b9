//! Scripts run on the Rust's matcher, whose angles are the port's, over the Rust's cache as the
//! scripts on a cache have it. A point and a heading that document 01 refuses are refused here;
//! states that it refuses are the table's to answer.
use super::script::*;
use crate::cache::oracle::Oracle as OfCache;
use crate::cache::script::{Ending, NO_KEY, OTHER, REFUSED, Record, ends};
use crate::packs::LIMIT;
use oracle_angles::cache::{Cache, Slot};
use oracle_angles::geo::Point;
use oracle_angles::matcher::{self, Matched, Matcher};
use oracle_angles::pack::Header;
use oracle_angles::tile::{TileId, crc32};

/// How a record ended, with the keys and the match that it answered.
pub struct Ended {
    pub ending: Ending,
    pub keys: [u32; 4],
    pub found: Option<Matched>,
}

impl Ended {
    pub fn plain(ending: Ending) -> Self {
        Self { ending, keys: [NO_KEY; 4], found: None }
    }

    fn of_match(found: Option<Matched>) -> Self {
        let ending = ends(if found.is_some() { FOUND } else { NOTHING });
        Self { ending, keys: [NO_KEY; 4], found }
    }
}

pub struct Oracle<'a> {
    pub cache: OfCache<'a>,
    pub matcher: Matcher,
}

pub fn is_point(fix: Point) -> bool {
    [fix.lat, fix.lon].iter().all(|n| (-LIMIT..=LIMIT).contains(n))
}

impl Oracle<'_> {
    pub fn answer(&mut self, record: &Record) -> Answer {
        let ended = match record[0] {
            0..32 => Ended::plain(self.cache.ending(record)),
            UPDATE | RESET | CURRENT | NEARBY => self.call(record),
            SET_MATCH..=SET_NO_MATCH => {
                set(&mut self.matcher, record);
                Ended::plain(ends(0))
            }
            _ => Ended::plain(ends(OTHER)),
        };
        self.told(&ended)
    }

    pub fn header(&self) -> Header {
        let h = &self.cache.header;
        Header {
            tile: h.tile,
            south: h.south,
            west: h.west,
            rows: h.rows,
            cols: h.cols,
            directory: h.directory,
            data: h.data,
            total: h.total,
            tiles: h.tiles,
            created: h.created,
            attribution_offset: h.attribution_offset,
            attribution_len: h.attribution_len,
        }
    }

    fn call(&mut self, record: &Record) -> Ended {
        let fix = Point { lat: record[1] as i32, lon: record[2] as i32 };
        let heading = Some(f32::from_bits(record[4])).filter(|_| record[3] != 0);
        let unfit = heading.is_some_and(|d| !(-360.0..=360.0).contains(&d));
        match record[0] {
            UPDATE | NEARBY if !is_point(fix) => Ended::plain([REFUSED, 8, 0, 0]),
            UPDATE if unfit => Ended::plain([REFUSED, 8, 0, 0]),
            UPDATE => self.update(fix, heading),
            NEARBY => self.nearby(fix),
            CURRENT => Ended::of_match(self.matcher.current()),
            _ => {
                self.matcher.reset();
                Ended::plain(ends(WAS_RESET))
            }
        }
    }

    fn nearby(&self, fix: Point) -> Ended {
        let mut out = [None; 4];
        matcher::nearby(&self.header(), fix, &mut out);
        let keys = out.map(|key| key.map_or(NO_KEY, key_word));
        let many = out.iter().flatten().count() as u32;
        Ended { ending: [KEYS, many, 0, 0], keys, found: None }
    }

    fn update(&mut self, fix: Point, heading: Option<f32>) -> Ended {
        let updated = self.lent(|cache, header, m| m.update(cache, header, fix, heading));
        match updated {
            Ok(found) => Ended::of_match(found),
            Err(key) => Ended::plain([NEED, key_word(key), 0, 0]),
        }
    }

    /// A call over a copy of the cache's state and the same arena; clock and ages, all that a
    /// lookup changes, are put back.
    pub fn lent<A>(&mut self, call: impl FnOnce(&mut Cache, &Header, &mut Matcher) -> A) -> A {
        let header = self.header();
        let c = &mut self.cache.cache;
        let mut copy = Cache::new(c.arena);
        for (to, from) in copy.slots.iter_mut().zip(&c.slots) {
            let key = from.key.map(|k| tile_key(crate::cache::script::word(k)));
            *to = Slot { key, len: from.len, ready: from.ready, part_of: from.part_of };
        }
        copy.used.iter().zip(&c.used).for_each(|(to, from)| to.set(from.get()));
        copy.count = c.count;
        copy.missing = c.missing.map(|k| k.map(|k| tile_key(crate::cache::script::word(k))));
        copy.clock.set(c.clock.get());
        let answer = call(&mut copy, &header, &mut self.matcher);
        c.clock.set(copy.clock.get());
        c.used.iter().zip(&copy.used).for_each(|(to, from)| to.set(from.get()));
        answer
    }

    /// The answer to a record that ended so, and the state as it is.
    pub fn told(&self, ended: &Ended) -> Answer {
        let c = &self.cache.cache;
        let ages: Vec<u8> = c.used.iter().flat_map(|age| age.get().to_le_bytes()).collect();
        let words = ended.ending.into_iter().chain([c.clock.get(), crc32(&ages)]);
        let words = words.chain(ended.keys).chain(of_maybe(ended.found.as_ref()));
        let words = words.chain(of_matcher(&self.matcher)).chain([0; 20]);
        words.collect::<Vec<_>>().try_into().expect("as many words as an answer has")
    }
}

fn zeros() -> Matched {
    Matched {
        tile: TileId { key: tile_key(0), crc: 0, edges: 0 },
        edge: 0,
        segment: 0,
        fraction: 0.0,
        forward: None,
        offset_m: 0.0,
        z_dm: 0,
        class: 0,
        flags: 0,
        confidence: 0,
        ridden_m: 0.0,
    }
}

fn set(m: &mut Matcher, record: &Record) {
    let [kind, a, b, edges, edge, count] = *record;
    match kind {
        SET_MATCH => set_field(m.current.get_or_insert_with(zeros), a, b),
        SET_CHALLENGER => {
            let id = TileId { key: tile_key(a), crc: b, edges: edges as u16 };
            m.challenger = Some((id, edge as u16, count as u8)).filter(|_| a != NO_KEY);
        }
        SET_MISSES => (m.misses, m.run_from_m) = (a as u8, f32::from_bits(b)),
        _ => m.current = None,
    }
}

fn set_field(m: &mut Matched, field: u32, value: u32) {
    match field {
        0 => m.tile.key = tile_key(value),
        1 => m.tile.crc = value,
        2 => m.tile.edges = value as u16,
        3 => m.edge = value as u16,
        4 => m.segment = value as u16,
        5 => m.fraction = f32::from_bits(value),
        6 => m.forward = [None, Some(false), Some(true)].get(value as usize).copied().flatten(),
        7 => m.offset_m = f32::from_bits(value),
        8 => m.z_dm = value as i32,
        9 => m.class = value as u8,
        10 => m.flags = value as u8,
        11 => m.confidence = value as u8,
        12 => m.ridden_m = f32::from_bits(value),
        _ => {}
    }
}
