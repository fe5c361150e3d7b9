//! The prediction against the original whose angles are the port's: scripts of fixes, starts and
//! loads, each road with every field and every height, also past its length, and each answer with
//! the clock and a sum of the ages.
pub mod bench;
pub mod list;
pub mod networks;
pub mod oracle;
pub mod refusals;
pub mod script;
pub mod start;
pub mod town;
pub mod trips;
pub mod unaltered;

use crate::cache::packs::Pack;
use crate::cache::script::{Ending, Record, SET_BYTE, SET_HEADER, SET_SLOT, record};
use crate::{Scale, matching, replay, tally::Tally};
use oracle_angles::{RULES, Rule, WAS};
use script::*;
use std::sync::atomic::Ordering;

/// A script, what it runs on, and what it has to answer.
pub struct Case {
    pub pack: Vec<u8>,
    pub arena: Vec<u8>,
    pub script: Vec<Record>,
    pub answers: Vec<Answer>,
    /// The arena after the last record.
    pub after: Vec<u8>,
}

impl Case {
    /// A script that is written while the Rust runs it; each record may go by its state.
    pub fn new(pack: &Pack, arena: Vec<u8>, write: impl FnOnce(&mut Writer)) -> Self {
        let mut answers = Vec::new();
        let case = matching::Case::new(pack, arena, |matching| {
            let mut writer = Writer { matching, roads: Vec::new(), late: false };
            write(&mut writer);
            answers = writer.answers();
        });
        let matching::Case { pack, arena, script, after, .. } = case;
        Self { pack, arena, script, answers, after }
    }

    /// Counts each answer and the arena; the first that differs is told with the script up to it.
    pub fn count(&self, tally: &mut Tally, name: &str) {
        let port = replay::replay_roads(&self.script, &self.pack, &self.arena);
        let same = port.words.len() == self.answers.len() * ANSWER
            && self.answers.iter().flat_map(Answer::words).eq(port.words.iter().copied())
            && port.arena == self.after
            && port.alone;
        self.answers.iter().for_each(|answer| tally.end(answer.told()));
        let compared = self.answers.len() as u64 + 1;
        tally.told(compared, (!same).then(|| format!("{name}: {}", self.difference(&port))));
    }

    fn difference(&self, port: &replay::Replayed) -> String {
        let rust: Vec<u32> = self.answers.iter().flat_map(Answer::words).collect();
        let Some(n) = port.words.iter().zip(&rust).position(|(port, rust)| port != rust) else {
            let at = port.arena.iter().zip(&self.after).position(|(port, rust)| port != rust);
            let (some, all, alone) = (port.words.len(), rust.len(), port.alone);
            let script = self.shown(self.script.len());
            return format!("{some} words of {all}, arena at {at:?}, alone {alone}\n{script}");
        };
        let (record, word) = (n / ANSWER, n % ANSWER);
        let (is, not) = (port.words[n], rust[n]);
        let head = |words: &[u32]| format!("{:x?}", &words[record * ANSWER..][..HEAD]);
        let (port, rust, script) = (head(&port.words), head(&rust), self.shown(record + 1));
        format!(
            "record {record}, word {word} is {is:#x}, not {not:#x}\n    {port}\n    {rust}\n{script}"
        )
    }

    /// The records before `end`, and how each ended.
    fn shown(&self, end: usize) -> String {
        let head = format!("    {} bytes of pack, {} of arena", self.pack.len(), self.arena.len());
        let line = |n: usize| {
            let ended = self.answers[n].told();
            format!("\n    {n:>4} {:x?} {ended:?}", self.script[n])
        };
        (0..end.min(self.script.len())).fold(head, |text, n| text + &line(n))
    }
}

/// A script under way: that of the matcher, and the predictions in it by their places.
pub struct Writer<'m, 'a> {
    pub matching: &'m mut matching::Writer<'a>,
    roads: Vec<(usize, Answer)>,
    /// A ready run may no longer pass.
    late: bool,
}

impl Writer<'_, '_> {
    /// How the record ended. After a ready run's byte, slot or header was changed only predictions
    /// and records that set up states are answered rightly, until they are as they were.
    pub fn put(&mut self, kind: u32, words: &[u32]) -> Ending {
        self.late |= [SET_SLOT, SET_BYTE, SET_HEADER].contains(&kind);
        if kind != ROAD {
            return self.matching.put(kind, words);
        }
        let record = record(kind, words);
        let answer = oracle::road(&mut self.matching.oracle, &record, self.late);
        self.keep(record, answer)
    }

    pub fn road(&mut self, horizon: f32, mark: u32) -> Ending {
        self.put(ROAD, &[horizon.to_bits(), mark])
    }

    /// A prediction that is refused as the Rust can't say; everything stays as it is.
    pub fn refuse(&mut self, horizon: f32, mark: u32, number: u32) {
        let record = record(ROAD, &[horizon.to_bits(), mark]);
        let answer = oracle::unchanged(&self.matching.oracle, &record, number);
        self.keep(record, answer);
    }

    fn keep(&mut self, record: Record, answer: Answer) -> Ending {
        let ending = answer.ending();
        self.roads.push((self.matching.script.len(), answer));
        self.matching.script.push(record);
        self.matching.answers.push([0; matching::script::ANSWER]);
        ending
    }

    fn answers(self) -> Vec<Answer> {
        let others = self.matching.answers.iter().map(|words| oracle::other(words));
        let mut answers: Vec<Answer> = others.collect();
        for (n, road) in self.roads {
            answers[n] = road;
        }
        answers
    }
}

/// Rules that can't apply. A 97th tile: each of the 96 before it takes a page at least, and the
/// pages may be 84 at most (96 less 12), so the budget is passed first. The tile of an edge that
/// was chosen is always there: its own junction looked it up, as the edge's own or as a twin, and
/// no lookup changes which tiles are ready; so too no tile is first met otherwise than as the
/// start's or a twin. A segment without length at the heading's span: of the pairs from the last
/// one back the first is taken whose first point is 25 m back, and its second point is the first
/// one of the pair behind, which was not, or the rider.
const NEVER: [Rule; 3] = [Rule::NinetySeventh, Rule::NeedOwn, Rule::HeadingStill];

/// How often the Rust's prediction met each of its rules; the comparison fails where one never
/// applied, and where one applied that can't.
fn rules() -> Tally {
    let mut tally = Tally::new("road, rules applied");
    for ((rule, name), times) in RULES.iter().zip(&WAS) {
        let (times, never) = (times.load(Ordering::Relaxed), NEVER.contains(rule));
        println!("    {name}: {times}{}", if never { ", as it must" } else { "" });
        let wanted = if never { "never" } else { "at least once" };
        tally.count((times == 0) == never, name, times, wanted);
    }
    tally
}

pub fn compare(scale: &Scale) -> Vec<Tally> {
    let n = scale.roads;
    let trips = Tally::over("road, trips", scale, n, |tally, random, _| {
        trips::compare(tally, random);
    });
    let far = Tally::over("road, far", scale, n / 10, trips::far);
    vec![trips, far, rules(), unaltered::compare(scale), refusals::compare()]
}
