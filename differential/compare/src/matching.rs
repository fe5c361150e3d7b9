//! The matcher against the original whose angles are the port's: scripts of fixes and loads, each
//! answer with the matcher's state, the clock and a sum of the ages.
pub mod bench;
pub mod list;
pub mod oracle;
pub mod refusals;
pub mod ride;
pub mod roads;
pub mod script;
pub mod unaltered;

use crate::cache::oracle::Oracle as OfCache;
use crate::cache::packs::Pack;
use crate::cache::script::{Ending, MORE, Record, STEP, record};
use crate::{Scale, replay, tally::Tally};
use oracle::{Ended, Oracle};
use oracle_angles::matcher::Matcher;
use oracle_angles::{MET, WAYS};
use script::*;
use std::sync::atomic::Ordering;

/// A script, what it runs on, and what it has to answer.
pub struct Case {
    pub pack: Vec<u8>,
    pub arena: Vec<u8>,
    pub script: Vec<Record>,
    pub answers: Vec<Answer>,
    /// The arena after the last record.
    pub after: Vec<u8>,
}

impl Case {
    /// A script that is written while the Rust runs it; each record may go by its state.
    pub fn new(pack: &Pack, arena: Vec<u8>, write: impl FnOnce(&mut Writer)) -> Self {
        let mut after = arena.clone();
        let cache = OfCache::new(pack.header, &pack.bytes, &mut after);
        let oracle = Oracle { cache, matcher: Matcher::default() };
        let mut writer = Writer { oracle, script: Vec::new(), answers: Vec::new() };
        write(&mut writer);
        let Writer { script, answers, .. } = writer;
        Self { pack: pack.bytes.clone(), arena, script, answers, after }
    }

    /// Counts each answer and the arena; the first that differs is told with the script up to it.
    pub fn count(&self, tally: &mut Tally, name: &str) {
        let port = replay::replay_matches(&self.script, &self.pack, &self.arena);
        let rust: Vec<u32> = self.answers.iter().flatten().copied().collect();
        let words = port.words.iter().zip(&rust).enumerate();
        let same = port.words.len() == rust.len()
            && words.clone().all(|(n, (&port, &rust))| script::same(n, port, rust))
            && port.arena == self.after
            && port.alone;
        self.answers.iter().for_each(|answer| tally.end(told([answer[0], answer[1], 0, 0])));
        let compared = self.answers.len() as u64 + 1;
        tally.told(compared, (!same).then(|| format!("{name}: {}", self.difference(&port))));
    }

    fn difference(&self, port: &replay::Replayed) -> String {
        let rust = self.answers.iter().flatten();
        let differs = |(n, (&port, &rust)): (usize, (&u32, &u32))| !script::same(n, port, rust);
        let Some(n) = port.words.iter().zip(rust).enumerate().position(differs) else {
            let (all, some) = (self.answers.len() * ANSWER, port.words.len());
            let at = port.arena.iter().zip(&self.after).position(|(port, rust)| port != rust);
            let script = self.shown(self.script.len());
            let alone = port.alone;
            return format!("{some} words of {all}, arena at {at:?}, alone {alone}\n{script}");
        };
        let (record, word) = (n / ANSWER, n % ANSWER);
        let (is, not) = (port.words[n], self.answers[record][word]);
        let ended = told(port.words[record * ANSWER..][..4].try_into().expect("four words"));
        let script = self.shown(record + 1);
        format!("record {record} ended {ended:?}, word {word} is {is:#x}, not {not:#x}\n{script}")
    }

    /// The records before `end`, and how each ended.
    fn shown(&self, end: usize) -> String {
        let head = format!("    {} bytes of pack, {} of arena", self.pack.len(), self.arena.len());
        let line = |n: usize| {
            let ended = told(self.answers[n][..4].try_into().expect("four words"));
            format!("\n    {n:>4} {:x?} {ended:?}", self.script[n])
        };
        (0..end.min(self.script.len())).fold(head, |text, n| text + &line(n))
    }
}

/// A script under way.
pub struct Writer<'a> {
    pub oracle: Oracle<'a>,
    pub script: Vec<Record>,
    pub answers: Vec<Answer>,
}

impl Writer<'_> {
    /// How the record ended.
    pub fn put(&mut self, kind: u32, words: &[u32]) -> Ending {
        let record = record(kind, words);
        let answer = self.oracle.answer(&record);
        self.script.push(record);
        self.answers.push(answer);
        answer[..4].try_into().expect("four words")
    }

    /// A record whose ending the Rust can't say; the state stays as it is.
    pub fn put_ending(&mut self, record: Record, ending: Ending) {
        self.script.push(record);
        self.answers.push(self.oracle.told(&Ended::plain(ending)));
    }

    /// Steps until the tile is ready or missing, or a read or the entry fails.
    pub fn settle(&mut self, key: u32) -> Ending {
        loop {
            let ending = self.put(STEP, &[key, 0]);
            if ending[0] != MORE {
                return ending;
            }
        }
    }

    pub fn update(&mut self, lat: i32, lon: i32, heading: Option<f32>) -> Ending {
        let bits = heading.unwrap_or(0.0).to_bits();
        self.put(UPDATE, &[lat as u32, lon as u32, heading.is_some().into(), bits])
    }
}

/// How often the Rust's matcher took each of its ways; the comparison fails where one was never
/// taken.
fn ways() -> Tally {
    let mut tally = Tally::new("matcher, ways taken");
    for (name, times) in WAYS.iter().zip(&MET) {
        let times = times.load(Ordering::Relaxed);
        println!("    {name}: {times}");
        tally.count(times > 0, name, times, "at least once");
    }
    tally
}

pub fn compare(scale: &Scale) -> Vec<Tally> {
    let n = scale.matches;
    let rides = Tally::over("matcher, rides", scale, n, |tally, random, _| {
        ride::compare(tally, random);
    });
    vec![rides, ways(), unaltered::compare(scale), refusals::compare()]
}
