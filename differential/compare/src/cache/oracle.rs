//! Scripts run on the Rust's cache. What the Rust doesn't have is kept beside it: the open fetch,
//! which no call here changes, and how much of the arena is lent. Keys outside the grid and
//! deliveries that don't fit are refused as document 01 says; states that it refuses are not
//! looked for here, so calls on them are the table's to answer.
use super::script::*;
use oracle_cache::cache::{Cache, Loading, Lookup, PAGE_BYTES, Slot};
use oracle_cache::pack::{Error, Header, Source, TileKey};
use oracle_cache::tile::crc32;

/// Answers the reads of one call, and keeps which they were.
struct Card<'p> {
    pack: &'p [u8],
    failure: u32,
    /// Bytes that answer the read in place of the pack's.
    given: Option<&'p [u8]>,
    reads: Vec<(u64, usize)>,
}

impl Source for Card<'_> {
    fn read(&mut self, offset: u64, buf: &mut [u8]) -> Result<(), Error> {
        self.reads.push((offset, buf.len()));
        match (self.failure, self.given) {
            (0, None) => self.pack.read(offset, buf),
            (0, Some(bytes)) => Ok(buf.copy_from_slice(bytes)),
            (1, _) => Err(Error::Media),
            _ => Err(Error::Range),
        }
    }
}

fn number(error: Error) -> u32 {
    match error {
        Error::Media => 1,
        Error::Range => 2,
        Error::Unsupported => 3,
        Error::Corrupt => 4,
    }
}

fn of_load(result: Result<bool, Error>) -> Ending {
    match result {
        Ok(true) => ends(DONE),
        Ok(false) => ends(MORE),
        Err(error) => [FAILED, number(error), 0, 0],
    }
}

/// Whether a read of `n` bytes, 0 for none, is answered by `len` bytes or by a failure.
fn fits(n: usize, failure: u32, len: usize) -> bool {
    match failure {
        0 => len == n,
        1 | 2 => n > 0,
        _ => false,
    }
}

/// The pack's bytes from `offset` on, cut at its end.
fn part(pack: &[u8], offset: u32, len: u32) -> &[u8] {
    let from = (offset as usize).min(pack.len());
    &pack[from..(from + len as usize).min(pack.len())]
}

fn maybe(word: u32) -> Option<TileKey> {
    Some(key(word)).filter(|_| word != NO_KEY)
}

fn of_maybe(key: Option<TileKey>) -> u32 {
    key.map_or(NO_KEY, word)
}

/// The state but for the arena.
struct Held {
    slots: [Slot; 96],
    used: [u32; 96],
    missing: [Option<TileKey>; 64],
    next_missing: usize,
    clock: u32,
    loading: Option<Loading>,
    loads: u32,
}

pub struct Oracle<'a> {
    pub cache: Cache<'a>,
    pub header: Header,
    pack: &'a [u8],
    /// What is open, and its key.
    pub pending: [u32; 2],
    lent: usize,
    /// The arena as it last was, and its sum: few records write to it.
    summed: (Vec<u8>, u32),
}

impl<'a> Oracle<'a> {
    pub fn new(header: Header, pack: &'a [u8], arena: &'a mut [u8]) -> Self {
        let (lent, summed) = (arena.len(), (arena.to_vec(), crc32(arena)));
        Self { cache: Cache::new(arena), header, pack, pending: [0, NO_KEY], lent, summed }
    }

    pub fn answer(&mut self, record: &Record) -> Answer {
        let ending = self.ending(record);
        self.told(ending)
    }

    pub fn ending(&mut self, record: &Record) -> Ending {
        match record[0] {
            1..=15 => self.call(record),
            16..=27 => {
                self.set(record);
                ends(0)
            }
            _ => ends(OTHER),
        }
    }

    pub fn in_grid(&self, key: TileKey) -> bool {
        key.row < self.header.rows && key.col < self.header.cols
    }

    fn call(&mut self, record: &Record) -> Ending {
        let [kind, at, how, offset, len, _] = *record;
        let at = key(at);
        let refused = |number| [REFUSED, number, 0, 0];
        if kind == LOAD && !fits(self.wanted(at), how, part(self.pack, offset, len).len()) {
            return refused(11);
        }
        if [GET, FETCH, LOAD, STEP, LOAD_FROM, PAGES].contains(&kind) && !self.in_grid(at) {
            return refused(9);
        }
        match kind {
            GET => self.get(at),
            FETCH => match self.next_read(at) {
                None => ends(SETTLED),
                Some((at, len)) => [READ, at as u32, (at >> 32) as u32, len as u32],
            },
            LOAD => self.load(at, how, Some(part(self.pack, offset, len))),
            STEP => self.load(at, how, None),
            LOAD_FROM => of_load(self.cache.load(&mut { self.pack }, &self.header, at)),
            CLEAR => {
                self.cache.clear();
                ends(CLEARED)
            }
            PAGES => [IS, self.cache.pages(at) as u32, 0, 0],
            CAPACITY => [IS, self.cache.capacity() as u32, 0, 0],
            LOADS => [IS, self.cache.loads, 0, 0],
            _ => ends(OTHER),
        }
    }

    fn get(&self, key: TileKey) -> Ending {
        match self.cache.get(key) {
            Lookup::Ready(tile) => {
                let at = tile.bytes.as_ptr().addr() - self.cache.arena.as_ptr().addr();
                assert_eq!(at % PAGE_BYTES, 0, "a tile starts at a page");
                [READY, (at / PAGE_BYTES) as u32, tile.bytes.len() as u32, 0]
            }
            Lookup::Missing => ends(MISSING),
            Lookup::Absent => ends(ABSENT),
        }
    }

    fn load(&mut self, key: TileKey, failure: u32, given: Option<&[u8]>) -> Ending {
        let mut card = Card { pack: self.pack, failure, given, reads: Vec::new() };
        let ending = of_load(self.cache.load(&mut card, &self.header, key));
        assert!(card.reads.len() < 2, "one read a step");
        ending
    }

    /// The read that the next step makes, found by a step that fails and is taken back.
    pub fn next_read(&mut self, key: TileKey) -> Option<(u64, usize)> {
        let held = self.held();
        let mut card = Card { pack: &[], failure: 1, given: None, reads: Vec::new() };
        let _ = self.cache.load(&mut card, &self.header, key);
        self.restore(held);
        card.reads.pop()
    }

    /// Bytes of the next step's read, 0 where it makes none.
    fn wanted(&mut self, key: TileKey) -> usize {
        let read = if self.in_grid(key) { self.next_read(key) } else { None };
        read.map_or(0, |(_, len)| len)
    }

    fn held(&self) -> Held {
        let c = &self.cache;
        Held {
            slots: c.slots,
            used: std::array::from_fn(|n| c.used[n].get()),
            missing: c.missing,
            next_missing: c.next_missing,
            clock: c.clock.get(),
            loading: c.loading,
            loads: c.loads,
        }
    }

    fn restore(&mut self, held: Held) {
        let c = &mut self.cache;
        c.slots = held.slots;
        c.used.iter().zip(held.used).for_each(|(cell, age)| cell.set(age));
        (c.missing, c.next_missing) = (held.missing, held.next_missing);
        c.clock.set(held.clock);
        (c.loading, c.loads) = (held.loading, held.loads);
    }

    fn set(&mut self, record: &Record) {
        let [kind, a, b, length, ready, part] = *record;
        let (at, c) = (a as usize, &mut self.cache);
        match kind {
            SET_CLOCK => c.clock.set(a),
            SET_USED if at < 96 => c.used[at].set(b),
            SET_SLOT if at < 96 => {
                let part_of = part.checked_sub(1).map(|page| page as usize);
                let (key, len) = (maybe(b), length as usize);
                c.slots[at] = Slot { key, len, ready: ready != 0, part_of };
            }
            SET_PLACE => c.next_missing = at,
            SET_MISSING if at < 64 => c.missing[at] = maybe(b),
            SET_LOADING => c.loading = loading(record),
            SET_PENDING => self.pending = [a, if a == 2 { b } else { NO_KEY }],
            SET_COUNT => c.count = at,
            SET_BYTE if at < c.arena.len() => c.arena[at] = b as u8,
            SET_LENT => self.lent = at.min(c.arena.len()),
            SET_HEADER => set_field(&mut self.header, a, b),
            SET_LOADS => c.loads = a,
            _ => {}
        }
    }

    /// The answer to a record that ended so, and the state as it is.
    pub fn told(&mut self, ending: Ending) -> Answer {
        let c = &self.cache;
        if self.summed.0 != c.arena {
            self.summed = (c.arena.to_vec(), crc32(c.arena));
        }
        let counts = [c.count as u32, c.clock.get(), c.next_missing as u32, c.loads];
        let load = c.loading.map_or([NO_KEY, 0, 0, 0, 0, 0], |l| {
            [word(l.key), l.slot as u32, l.offset, l.len as u32, l.done as u32, 0]
        });
        let slots = c.slots.iter().flat_map(|slot| {
            let part = slot.part_of.map_or(0, |page| (page as u32).wrapping_add(1));
            let kind = part.wrapping_mul(2).wrapping_add(slot.ready.into());
            [of_maybe(slot.key), slot.len as u32, kind]
        });
        let words = ending.into_iter().chain(counts).chain(load);
        let words = words.chain(self.pending).chain([0]).chain(slots);
        let words = words.chain(c.used.iter().map(|age| age.get()));
        let words = words.chain(c.missing.iter().map(|&key| of_maybe(key)));
        let words = words.chain([self.summed.1, self.lent as u32, 0, 0, 0, 0]);
        words.collect::<Vec<_>>().try_into().expect("as many words as an answer has")
    }
}

fn loading(record: &Record) -> Option<Loading> {
    let [_, at, slot, offset, len, done] = *record;
    let (slot, len, done) = (slot as usize, len as usize, done as usize);
    maybe(at).map(|key| Loading { key, slot, offset, len, done })
}

fn set_field(h: &mut Header, field: u32, value: u32) {
    match field {
        0 => h.tile = value,
        1 => h.south = value as i32,
        2 => h.west = value as i32,
        3 => h.rows = value as u16,
        4 => h.cols = value as u16,
        5 => h.directory = value,
        6 => h.data = value,
        7 => h.total = value,
        _ => {}
    }
}
