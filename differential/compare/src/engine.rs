//! The engine against the original whose angles are the port's: scripts of fixes, steps and
//! deliveries, each answer with the published road, every height of it, what is due, the open
//! fetch, the clock and sums of the ages and of the arena.
pub mod bench;
pub mod caches;
pub mod finding;
pub mod list;
pub mod oracle;
pub mod orders;
pub mod packs;
pub mod refusals;
pub mod script;
pub mod sled;
pub mod special;
pub mod trips;
pub mod unaltered;

use crate::cache::script::{Ending, Record, record};
use crate::{Scale, replay, tally::Tally};
use oracle::Oracle;
use oracle_angles::{PATHS, Path, TOOK};
use script::*;
use std::sync::atomic::Ordering;

/// The packs as a script is given them: how many, each one's offset and length, and their bytes.
pub fn joined(packs: &[Vec<u8>]) -> Vec<u8> {
    let mut words = vec![packs.len() as u32];
    let mut at = 4 + 8 * packs.len();
    for pack in packs {
        words.extend([at as u32, pack.len() as u32]);
        at += pack.len();
    }
    let words = words.into_iter().flat_map(u32::to_le_bytes);
    words.chain(packs.iter().flatten().copied()).collect()
}

/// A script, what it runs on, and what it has to answer.
pub struct Case {
    pub packs: Vec<Vec<u8>>,
    pub arena: Vec<u8>,
    pub script: Vec<Record>,
    pub answers: Vec<Answer>,
    /// The arena after the last record.
    pub after: Vec<u8>,
}

impl Case {
    /// A script that is written while the Rust runs it; each record may go by its state.
    pub fn new(packs: Vec<Vec<u8>>, arena: Vec<u8>, write: impl FnOnce(&mut Writer)) -> Self {
        let mut after = arena.clone();
        let oracle = Oracle::new(&packs, &mut after);
        let mut writer = Writer { oracle, script: Vec::new(), answers: Vec::new() };
        write(&mut writer);
        let Writer { script, answers, .. } = writer;
        Self { packs, arena, script, answers, after }
    }

    /// Counts each answer and the arena; the first that differs is told with the script up to it.
    pub fn count(&self, tally: &mut Tally, name: &str) {
        let port = replay::replay_engine(&self.script, &joined(&self.packs), &self.arena);
        let rust = self.answers.iter().flat_map(Answer::words);
        let words = port.words.iter().zip(rust).enumerate();
        let same = port.words.len() == self.answers.len() * ANSWER
            && words.into_iter().all(|(n, (&port, rust))| script::same(n, port, rust))
            && port.arena == self.after
            && port.alone;
        self.answers.iter().for_each(|answer| tally.end(answer.told()));
        let compared = self.answers.len() as u64 + 1;
        tally.told(compared, (!same).then(|| format!("{name}: {}", self.difference(&port))));
    }

    fn difference(&self, port: &replay::Replayed) -> String {
        if port.words.is_empty() {
            return format!("no answers to {} records", self.script.len());
        }
        let rust: Vec<u32> = self.answers.iter().flat_map(Answer::words).collect();
        let differs = |(n, (&port, &rust)): (usize, (&u32, &u32))| !script::same(n, port, rust);
        let Some(n) = port.words.iter().zip(&rust).enumerate().position(differs) else {
            let at = port.arena.iter().zip(&self.after).position(|(port, rust)| port != rust);
            let (some, all, alone) = (port.words.len(), rust.len(), port.alone);
            let script = self.shown(self.script.len());
            return format!("{some} words of {all}, arena at {at:?}, alone {alone}\n{script}");
        };
        let (record, word) = (n / ANSWER, n % ANSWER);
        let (is, not) = (port.words[n], rust[n]);
        let head = |words: &[u32]| format!("{:x?}", &words[record * ANSWER..][..HEAD]);
        let (port, rust, script) = (head(&port.words), head(&rust), self.shown(record + 1));
        format!(
            "record {record}, word {word} is {is:#x}, not {not:#x}\n    {port}\n    {rust}\n{script}"
        )
    }

    /// The records before `end`, and how each ended.
    fn shown(&self, end: usize) -> String {
        let packs: Vec<usize> = self.packs.iter().map(Vec::len).collect();
        let head = format!("    {packs:?} bytes of packs, {} of arena", self.arena.len());
        let line = |n: usize| {
            let ended = self.answers[n].told();
            format!("\n    {n:>4} {:x?} {ended:?}", self.script[n])
        };
        (0..end.min(self.script.len())).fold(head, |text, n| text + &line(n))
    }
}

/// A script under way.
pub struct Writer<'a> {
    pub oracle: Oracle<'a>,
    pub script: Vec<Record>,
    pub answers: Vec<Answer>,
}

impl Writer<'_> {
    /// How the record ended.
    pub fn put(&mut self, kind: u32, words: &[u32]) -> Ending {
        let record = record(kind, words);
        let answer = self.oracle.answer(&record);
        let ending = answer.ending();
        self.script.push(record);
        self.answers.push(answer);
        ending
    }

    pub fn fix(&mut self, (lat, lon): (i32, i32), at_ms: u64) -> Ending {
        let [low, high] = [at_ms as u32, (at_ms >> 32) as u32];
        self.put(FIX, &[lat as u32, lon as u32, low, high])
    }

    /// One step with its read, if it makes one, answered so.
    pub fn advance(&mut self, how: u32) -> Ending {
        let ending = self.put(STEP, &[]);
        if ending[0] == FETCH { self.put(DELIVER, &[how]) } else { ending }
    }

    /// Steps, each with its read answered by the pack, while there is work, at most so many.
    pub fn settle(&mut self, most: usize) -> Ending {
        for _ in 0..most {
            let ending = self.advance(BYTES);
            if ending[0] != WORKING {
                return ending;
            }
        }
        [WORKING, 0, 0, 0]
    }

    /// The clock set, and each run's age as far behind it as it was.
    pub fn wind(&mut self, clock: u32) {
        let cache = &self.oracle.engine.cache;
        let moved = clock.wrapping_sub(cache.clock.get());
        let heads = cache.slots.iter().zip(&cache.used).enumerate();
        let heads = heads.filter(|(_, (slot, _))| slot.key.is_some());
        let ages: Vec<_> = heads.map(|(n, (_, used))| [used.get(), n as u32]).collect();
        self.put(SET, &[CLOCK, clock]);
        for [used, page] in ages {
            self.put(SET, &[USED, used.wrapping_add(moved), page]);
        }
    }

    /// The last answer's word `n`.
    pub fn last(&self, n: usize) -> u32 {
        self.answers[self.answers.len() - 1].head[n]
    }
}

/// A path that can't be taken. Rematch: the start's tile has been ready, and only a reset, which
/// forgets the match, changes the pack; a tile that was ready once is so again after each load of
/// it, whole and of the same id, as the pack's bytes and the page count are the same.
const NEVER: [Path; 1] = [Path::Rematch];

/// How often the Rust's engine took each of its paths; the comparison fails where one was never
/// taken, and where one was that can't be.
fn paths() -> Tally {
    let mut tally = Tally::new("engine, paths taken");
    for ((path, name), times) in PATHS.iter().zip(&TOOK) {
        let (times, never) = (times.load(Ordering::Relaxed), NEVER.contains(path));
        println!("    {name}: {times}{}", if never { ", as it must" } else { "" });
        let wanted = if never { "never" } else { "at least once" };
        tally.count((times == 0) == never, name, times, wanted);
    }
    tally
}

pub fn compare(scale: &Scale) -> Vec<Tally> {
    let n = scale.engines;
    // Other comparisons load tiles too.
    TOOK.iter().for_each(|times| times.store(0, Ordering::Relaxed));
    let trips = Tally::over("engine, trips", scale, n, |tally, random, _| {
        trips::compare(tally, random);
    });
    let special = Tally::over("engine, special", scale, n / 4, special::compare);
    let rounds = if scale.every { 10 } else { 1 };
    let pages = Tally::over("engine, page counts", scale, 98 * rounds, special::page_counts);
    let orders = orders::compare(scale);
    let (finding, refusals, paths) = (finding::compare(), refusals::compare(), paths());
    vec![trips, special, pages, orders, finding, refusals, paths, unaltered::compare(scale)]
}
