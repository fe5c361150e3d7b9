//! The cache against the original: scripts of calls, each answer with the whole state and the
//! arena's sum, and the arena after the last.
pub mod bench;
pub mod list;
pub mod oracle;
pub mod packs;
pub mod refusals;
pub mod script;
pub mod unordered;

use crate::random::{Random, pick};
use crate::{Scale, replay, tally::Tally};
use oracle::Oracle;
use oracle_cache::cache::PAGE_BYTES;
use packs::Pack;
use script::*;

/// A script, what it runs on, and what it has to answer.
pub struct Case {
    pub pack: Vec<u8>,
    pub arena: Vec<u8>,
    pub script: Vec<Record>,
    pub answers: Vec<Answer>,
    /// The arena after the last record.
    pub after: Vec<u8>,
}

impl Case {
    /// A script that is written while the Rust runs it; each record may go by its state.
    pub fn new(pack: &Pack, arena: Vec<u8>, write: impl FnOnce(&mut Writer)) -> Self {
        let mut after = arena.clone();
        let oracle = Oracle::new(pack.header, &pack.bytes, &mut after);
        let mut writer = Writer { oracle, script: Vec::new(), answers: Vec::new() };
        write(&mut writer);
        let Writer { script, answers, .. } = writer;
        Self { pack: pack.bytes.clone(), arena, script, answers, after }
    }

    /// Counts each answer and the arena; the first that differs is told with the script up to it.
    pub fn count(&self, tally: &mut Tally, name: &str) {
        let port = replay::replay(&self.script, &self.pack, &self.arena);
        let rust: Vec<u32> = self.answers.iter().flatten().copied().collect();
        let same = port.words == rust && port.arena == self.after && port.alone;
        self.answers.iter().for_each(|answer| tally.end(told([answer[0], answer[1], 0, 0])));
        let compared = self.answers.len() as u64 + 1;
        tally.told(compared, (!same).then(|| format!("{name}: {}", self.difference(&port))));
    }

    fn difference(&self, port: &replay::Replayed) -> String {
        let rust = self.answers.iter().flatten();
        let Some(n) = rust.zip(&port.words).position(|(rust, port)| rust != port) else {
            let (all, some) = (self.answers.len() * ANSWER, port.words.len());
            let at = port.arena.iter().zip(&self.after).position(|(port, rust)| port != rust);
            let script = self.shown(self.script.len());
            return format!(
                "{some} words of {all}, arena at {at:?}, alone {}\n{script}",
                port.alone
            );
        };
        let (record, word) = (n / ANSWER, n % ANSWER);
        let (is, not) = (port.words[n], self.answers[record][word]);
        let ended = told(port.words[record * ANSWER..][..4].try_into().expect("four words"));
        let script = self.shown(record + 1);
        format!("record {record} ended {ended:?}, word {word} is {is:#x}, not {not:#x}\n{script}")
    }

    /// The records before `end`, and how each ended.
    fn shown(&self, end: usize) -> String {
        let pages = self.arena.len() / PAGE_BYTES;
        let head = format!("    {} bytes of pack, {pages} pages", self.pack.len());
        let line = |n: usize| {
            let ended = told(self.answers[n][..4].try_into().expect("four words"));
            format!("\n    {n:>4} {:x?} {ended:?}", self.script[n])
        };
        (0..end.min(self.script.len())).fold(head, |text, n| text + &line(n))
    }
}

/// A script under way.
pub struct Writer<'a> {
    pub oracle: Oracle<'a>,
    pub script: Vec<Record>,
    pub answers: Vec<Answer>,
}

impl Writer<'_> {
    /// How the record ended.
    pub fn put(&mut self, kind: u32, words: &[u32]) -> Ending {
        let record = record(kind, words);
        let answer = self.oracle.answer(&record);
        self.script.push(record);
        self.answers.push(answer);
        answer[..4].try_into().expect("four words")
    }

    /// A record whose ending the Rust can't say; the state stays as it is.
    pub fn put_ending(&mut self, record: Record, ending: Ending) {
        self.script.push(record);
        self.answers.push(self.oracle.told(ending));
    }

    /// Steps until the tile is ready or missing, or a read or the entry fails.
    pub fn settle(&mut self, key: u32) -> Ending {
        loop {
            let ending = self.put(STEP, &[key, 0]);
            if ending[0] != MORE {
                return ending;
            }
        }
    }
}

/// An arena of so many pages and a rest that makes none, with any bytes.
fn arena(random: &mut Random, pages: usize) -> Vec<u8> {
    let rest = pick(&[0, 0, 1, PAGE_BYTES - 1], random);
    let mut arena = vec![random.next() as u8; pages * PAGE_BYTES + rest];
    arena.iter_mut().step_by(97).for_each(|byte| *byte = random.next() as u8);
    arena
}

/// What random scripts go by.
struct Aim<'p> {
    pack: &'p Pack,
    /// The tile that steps go towards until it is settled.
    key: u32,
    /// One read in so many fails, and one aim in so many is given up.
    misses: u64,
}

impl Aim<'_> {
    /// A key that the state knows, one of the grid, or one time in many one outside it.
    fn some_key(&self, writer: &Writer, random: &mut Random) -> u32 {
        let c = &writer.oracle.cache;
        let page = random.below(c.count.max(1) as u64) as usize;
        let slot = c.slots[c.slots[page].part_of.unwrap_or(page)].key;
        let missing = c.missing[random.below(64) as usize];
        let loading = c.loading.map(|l| l.key);
        let known = pick(&[slot, slot, missing, loading], random).map(word);
        let h = &self.pack.header;
        let out = [u32::from(h.rows) << 16, u32::from(h.cols), NO_KEY];
        match random.below(64) {
            0 => pick(&out, random),
            1..32 => known.unwrap_or(self.key),
            _ => self.pack.key(random),
        }
    }

    /// A step towards the aim, its read mostly answered; another aim once it is settled.
    fn step(&mut self, writer: &mut Writer, random: &mut Random) {
        let how = if random.below(self.misses) == 0 { pick(&[1, 2], random) } else { 0 };
        let ending = match random.below(8) {
            0 => writer.put(LOAD_FROM, &[self.key]),
            1 => self.deliver(writer, random, how),
            _ => writer.put(STEP, &[self.key, how]),
        };
        let over = ending[0] == DONE || ending[0] == FAILED && random.below(2) == 0;
        if over || random.below(self.misses) == 0 {
            self.key = self.next_key(writer, random);
        }
    }

    /// A key that isn't settled, if one is soon found.
    fn next_key(&self, writer: &mut Writer, random: &mut Random) -> u32 {
        let mut some = || self.pack.key(random);
        let keys = [some(), some(), some(), some()];
        let wanted = |&at: &u32| writer.oracle.next_read(key(at)).is_some();
        keys.into_iter().find(wanted).unwrap_or(keys[0])
    }

    /// `load` with what the next step wants, or with something else.
    fn deliver(&self, writer: &mut Writer, random: &mut Random, how: u32) -> Ending {
        let (at, len) = writer.oracle.next_read(key(self.key)).unwrap_or((0, 0));
        let stray = pick(&[0, 0, 0, 0, 1, 2_048], random);
        let shift = if random.below(32) == 0 { 8 } else { 0 };
        let failure = pick(&[how, how, how, how, 3, u32::MAX], random);
        let len = if how == 0 { len as u32 + stray } else { stray };
        writer.put(LOAD, &[self.key, failure, at as u32 + shift, len])
    }

    /// Clock and ages that are equal, or about to wrap; the ring; the count of loads.
    fn set(&self, writer: &mut Writer, random: &mut Random) {
        let c = &writer.oracle.cache;
        let (now, count) = (c.clock.get(), c.count.max(1) as u64);
        let page = random.below(count) as u32;
        let age = c.used[random.below(count) as usize].get();
        let near = u32::MAX - random.below(8) as u32;
        match random.below(8) {
            0 => writer.put(SET_CLOCK, &[pick(&[near, near, 0, random.bits()], random)]),
            1..5 => {
                let ages = [age, age, now, now.wrapping_sub(1), now.wrapping_add(1), near, 0];
                writer.put(SET_USED, &[page, pick(&ages, random)])
            }
            5 => writer.put(SET_PLACE, &[random.below(64) as u32]),
            6 => {
                let some = self.some_key(writer, random);
                let key = if random.below(8) == 0 { some } else { NO_KEY };
                writer.put(SET_MISSING, &[random.below(64) as u32, key])
            }
            _ => writer.put(SET_LOADS, &[pick(&[u32::MAX, u32::MAX - 1, 0], random)]),
        };
    }

    /// A byte of the arena that is of no ready run: those the port checks again.
    fn scratch(&self, writer: &mut Writer, random: &mut Random) {
        let c = &writer.oracle.cache;
        let at = random.below(c.arena.len().max(1) as u64) as usize;
        let page = (at / PAGE_BYTES).min(95);
        let head = c.slots[page].part_of.unwrap_or(page);
        if !c.slots[head].ready {
            writer.put(SET_BYTE, &[at as u32, random.bits()]);
        }
    }

    fn ask(&self, writer: &mut Writer, random: &mut Random) {
        let key = self.some_key(writer, random);
        let kind = pick(&[GET, GET, GET, GET, FETCH, FETCH, PAGES, CAPACITY, LOADS], random);
        writer.put(kind, &[key]);
    }

    fn record(&mut self, writer: &mut Writer, random: &mut Random) {
        match random.below(64) {
            0..34 => self.step(writer, random),
            34..54 => self.ask(writer, random),
            54..62 => self.set(writer, random),
            62 => self.scratch(writer, random),
            _ => {
                let kind = pick(&[CLEAR, 10, 15, 28, u32::MAX], random);
                writer.put(kind, &[]);
            }
        }
    }
}

fn random_case(random: &mut Random, pack: &Pack, pages: usize, records: u64) -> Case {
    Case::new(pack, arena(random, pages), |writer| {
        let (key, misses) = (pack.key(random), pick(&[5, 20, 100, 1_000], random));
        let mut aim = Aim { pack, key, misses };
        (0..records).for_each(|_| aim.record(writer, random));
    })
}

/// One pack under arenas of several sizes, most of them smaller than its tiles together.
fn few_pages(tally: &mut Tally, random: &mut Random) {
    let pack = packs::pack(random);
    for _ in 0..6 {
        let (some, any) = (random.below(8), random.below(98));
        let few = pick(&[0, 1, some, some, some, 6, 8, 8 + random.below(16)], random);
        let pages = if random.below(32) == 0 { any } else { few };
        let records = 40 + random.below(160);
        random_case(random, &pack, pages as usize, records).count(tally, "random");
    }
}

/// More missing keys than the ring has places.
fn ring(tally: &mut Tally, random: &mut Random) {
    let (pack, pages) = (packs::sparse(random), random.below(4) as usize);
    let arena = arena(random, pages);
    let case = Case::new(&pack, arena, |writer| {
        let mut aim = Aim { pack: &pack, key: 0, misses: 20 };
        for n in 0..90 {
            writer.put(STEP, &[n / 10 << 16 | n % 10, 0]);
            (0..random.below(3)).for_each(|_| aim.record(writer, random));
        }
    });
    case.count(tally, "ring");
}

/// All pages of the largest cache in use, and of one that is lent more than it takes.
fn all_pages(tally: &mut Tally, random: &mut Random, n: u64) {
    let pack = packs::many(random);
    let arena = arena(random, if n % 4 == 3 { 97 } else { 96 });
    let case = Case::new(&pack, arena, |writer| {
        let mut aim = Aim { pack: &pack, key: 0, misses: 20 };
        for n in 0..104 {
            writer.settle(n / 12 << 16 | n % 12);
        }
        (0..60).for_each(|_| aim.record(writer, random));
    });
    case.count(tally, "random");
}

/// Reads of a load: the entry and up to five chunks.
const READS: u32 = 6;
/// How each of the reads is answered, by the digits of a number: bytes, missed, past the end.
const ORDERS: u64 = 3u64.pow(READS);
/// Tiles of one to five chunks, and another.
const ORDERED: [usize; 6] = [1_648, 3_696, 5_744, 7_792, 9_840, 4_000];
/// The tile, pages of the cache, and before which step the other tile's load comes, if any.
const SHAPES: u64 = 5 * 3 * 7;

/// The tile is loaded with its first reads answered in one of all orders, and then to its end; in
/// between another tile's load is begun, which drops it. None where an answer makes no difference,
/// because no read is made: that is another order's script.
fn ordered(pack: &Pack, n: u64) -> Option<Case> {
    let (order, shape) = (n % ORDERS, n / ORDERS);
    let (tile, pages, other) = (shape % 5, 1 + shape / 5 % 3, shape / 15 % 7);
    let (tile, second) = (packs::row(tile as u16), packs::row(5));
    let mut alike = false;
    let case = Case::new(pack, vec![7; pages as usize * PAGE_BYTES + 5], |writer| {
        for step in 0..READS {
            if u64::from(step) == other {
                writer.put(STEP, &[second, 0]);
                writer.put(STEP, &[second, 0]);
            }
            let how = (order / 3u64.pow(step) % 3) as u32;
            alike |= how > 0 && writer.oracle.next_read(key(tile)).is_none();
            writer.put(STEP, &[tile, how]);
        }
        writer.settle(tile);
        for key in [second, tile] {
            writer.put(GET, &[key]);
            writer.settle(key);
        }
        writer.put(GET, &[tile]);
    });
    (!alike).then_some(case)
}

pub fn compare(scale: &Scale) -> Vec<Tally> {
    let n = scale.cache;
    let (orders, pack) = (ORDERS * SHAPES, packs::of(&ORDERED));
    // The gate takes every seventh; 7 and the number of orders have no common factor, so that each
    // shape is met with other orders.
    let stride = if scale.every { 1 } else { 7 };
    vec![
        Tally::over("cache, few pages", scale, n, |tally, random, _| few_pages(tally, random)),
        Tally::over("cache, missing ring", scale, n / 2, |tally, random, _| ring(tally, random)),
        Tally::over("cache, all pages", scale, n / 20, all_pages),
        Tally::over("cache, orders of reads", scale, orders / stride, |tally, _, n| {
            ordered(&pack, n * stride).iter().for_each(|case| case.count(tally, "order"));
        }),
        Tally::over("cache, unordered tiles", scale, n, |tally, random, _| {
            unordered::count(tally, random)
        }),
        refusals::compare(),
    ]
}
