//! Records of scripts on a matcher and its cache.
use super::cache::Session;
use super::layout as at;
use super::{Lent, key_word, maybe};
use crate::cache::script::{Ending, NO_KEY, OTHER, REFUSED, Record, ends};
use crate::matching::script::*;
use crate::record::{self as port, Matched, MatcherWords, Outcome, Point};

/// What a script works on: what a script on a cache does, and the matcher's own words.
#[derive(Clone)]
pub struct State {
    pub session: Session,
    pub matcher: Lent<{ at::MATCHER_WORDS }>,
}

/// How a record ended: its first four words, the keys and the match that it answered.
pub struct Ended {
    pub ending: Ending,
    keys: [u32; 4],
    found: Option<Matched>,
}

impl Ended {
    pub fn plain(ending: Ending) -> Self {
        Self { ending, keys: [NO_KEY; 4], found: None }
    }

    fn found(m: Matched) -> Self {
        Self { found: Some(m), ..Self::plain(ends(FOUND)) }
    }
}

/// A figure's bits, of a not-a-number always the same.
fn figure_of(bits: u32) -> u32 {
    figure(f32::from_bits(bits))
}

impl State {
    pub fn new(pack: &[u8], arena: &[u8]) -> Self {
        let mut matcher = Lent::default();
        port::matcher_reset(&mut matcher.is);
        Self { session: Session::new(pack, arena), matcher }
    }

    /// One record.
    pub fn taken(&mut self, record: &Record, pack: &[u8], arena: &mut [u8]) -> Ended {
        match record[0] {
            0..32 => Ended::plain(self.session.taken(record, pack, arena)),
            32..48 => self.called(record, &arena[..self.session.lent]),
            48..52 => {
                set(&mut self.matcher.is, record);
                Ended::plain(ends(0))
            }
            _ => Ended::plain(ends(OTHER)),
        }
    }

    fn called(&mut self, record: &Record, arena: &[u8]) -> Ended {
        let fix = Point { lat: record[1] as i32, lon: record[2] as i32 };
        let refused = |number| Ended::plain([REFUSED, number, 0, 0]);
        match record[0] {
            UPDATE => self.update(record, fix, arena),
            RESET => {
                port::matcher_reset(&mut self.matcher.is);
                Ended::plain(ends(WAS_RESET))
            }
            CURRENT => match port::matcher_current(&self.matcher.is) {
                Err(number) => refused(number),
                Ok(None) => Ended::plain(ends(NOTHING)),
                Ok(Some(m)) => Ended::found(m),
            },
            NEARBY => match port::nearby(self.session.header, fix) {
                Err(number) => refused(number),
                Ok(keys) => {
                    let many = keys.iter().filter(|&&key| key != NO_KEY).count() as u32;
                    Ended { keys, ..Ended::plain([KEYS, many, 0, 0]) }
                }
            },
            _ => Ended::plain(ends(OTHER)),
        }
    }

    fn update(&mut self, record: &Record, fix: Point, arena: &[u8]) -> Ended {
        let heading = (record[3] != 0).then(|| f32::from_bits(figure_of(record[4])));
        let (words, m) = (&mut self.session.words.is, &mut self.matcher.is);
        match port::matcher_update(m, words, arena, self.session.header, fix, heading) {
            Outcome::Found(m) => Ended::found(m),
            Outcome::Nothing => Ended::plain(ends(NOTHING)),
            Outcome::Need(key) => Ended::plain([NEED, key.word(), 0, 0]),
            Outcome::Refused(number) => Ended::plain([REFUSED, number, 0, 0]),
        }
    }
}

fn set(m: &mut MatcherWords, record: &Record) {
    let [kind, a, b, ..] = *record;
    match kind {
        SET_MATCH => set_field(m, a, b),
        SET_CHALLENGER => {
            let [tag, key] = maybe(a);
            let [crc, edges, edge, count] =
                [b, record[3] % 65_536, record[4] % 65_536, record[5] % 256];
            let words = if tag == 1 { [1, key, crc, edges, edge, count] } else { [0; 6] };
            m[at::CHALLENGER..][..6].copy_from_slice(&words);
        }
        SET_MISSES => (m[at::MISSES], m[at::RUN_FROM]) = (a % 256, figure_of(b)),
        _ => m[..14].fill(0),
    }
}

/// A field of the current match, cut to its width; a match is there from then on.
fn set_field(m: &mut MatcherWords, field: u32, value: u32) {
    m[0] = 1;
    let value = match field {
        2..5 => value % 65_536,
        5 | 7 | 12 => figure_of(value),
        6 => {
            if value < 3 {
                value
            } else {
                0
            }
        }
        9..12 => value % 256,
        _ => value,
    };
    if field < 13 {
        m[1 + field as usize] = value;
    }
}

impl super::Script for State {
    const ANSWER: usize = ANSWER;

    fn new(pack: &[u8], arena: &[u8]) -> Self {
        Self::new(pack, arena)
    }

    fn answered(&mut self, r: &Record, pack: &[u8], arena: &mut [u8], out: &mut Vec<u32>) {
        let ended = self.taken(r, pack, arena);
        let (from, m) = (out.len(), &self.matcher.is);
        out.extend(ended.ending);
        out.extend([self.session.words.is[at::CLOCK], self.session.ages()]);
        out.extend(ended.keys);
        out.extend(ended.found.map_or([0; 13], Matched::words));
        out.extend(&m[..at::CHALLENGER]);
        out.push(key_word(&m[at::CHALLENGER..][..2]));
        out.extend(&m[at::CHALLENGER + 2..]);
        out.resize(from + ANSWER, 0);
    }

    fn marked(&mut self, record: &Record, pack: &[u8], arena: &mut [u8]) -> u32 {
        let ended = self.taken(record, pack, arena);
        let figures = |m: Matched| {
            let [offset, z, confidence, ridden] = [7, 8, 11, 12].map(|n| m.words()[n]);
            offset.wrapping_add(ridden).wrapping_add(z).wrapping_add(confidence)
        };
        ended.ending[0].wrapping_add(ended.found.map_or(0, figures))
    }

    fn wind(&mut self, clock: u32) {
        self.session.words.is[at::CLOCK] = clock;
    }

    fn alone(&self) -> bool {
        self.session.words.alone() && self.matcher.alone()
    }
}
