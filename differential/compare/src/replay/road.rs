//! Records of scripts on the road ahead, a matcher and its cache.
use super::layout::{AHEAD, BACK, CLOCK};
use super::matching::State;
use crate::cache::script::{Ending, OTHER, REFUSED, Record, ends};
use crate::matching::script::{NEED, NOTHING, figure};
use crate::record::{self as port, Matched, Prediction, Road};
use crate::road::script::*;

/// What a script works on, and whether a call wrote beside the heights that it was lent.
#[derive(Clone)]
pub struct Roads {
    state: State,
    wrote: bool,
}

/// How a record ended: its first four words, the road that it answered (all zeros with none), and
/// the heights that the call was lent, as it left them.
struct Ended {
    ending: Ending,
    road: Prediction,
    heights: [i16; HEIGHTS],
}

impl Ended {
    fn plain(ending: Ending) -> Self {
        Self { ending, road: Prediction::default(), heights: [0; HEIGHTS] }
    }
}

/// Stands beside the heights that are lent.
const BESIDE: i16 = 0x2bad;

/// The samples, what lies between, those behind, and what lies behind them.
#[repr(C)]
struct Heights {
    samples: [i16; AHEAD],
    between: [i16; 9],
    behind: [i16; BACK],
    after: [i16; 9],
}

impl Roads {
    fn taken(&mut self, record: &Record, pack: &[u8], arena: &mut [u8]) -> Ended {
        match record[0] {
            0..ROAD => Ended::plain(self.state.taken(record, pack, arena).ending),
            ROAD => self.called(record, arena),
            _ => Ended::plain(ends(OTHER)),
        }
    }

    /// The road ahead of the current match, where there is one, with heights that are all the mark
    /// before.
    fn called(&mut self, record: &Record, arena: &[u8]) -> Ended {
        let (s, m) = (&mut self.state.session, &self.state.matcher.is);
        if m[0] == 0 {
            return Ended::plain(ends(NOTHING));
        }
        let start = Matched::of(m[1..14].try_into().expect("13 words"));
        let horizon = f32::from_bits(figure(f32::from_bits(record[1])));
        let mark = record[2] as i16;
        let (samples, behind) = ([mark; AHEAD], [mark; BACK]);
        let mut h = Heights { samples, between: [BESIDE; 9], behind, after: [BESIDE; 9] };
        let (words, lent) = (&mut s.words.is, &arena[..s.lent]);
        let answer =
            port::predict(words, lent, s.header, start, horizon, &mut h.samples, &mut h.behind);
        self.wrote |= [h.between, h.after] != [[BESIDE; 9]; 2];
        let mut heights = [0; HEIGHTS];
        heights[..AHEAD].copy_from_slice(&h.samples);
        heights[AHEAD..].copy_from_slice(&h.behind);
        let (ending, road) = match answer {
            Road::Road(road) => (ends(IS_ROAD), road),
            Road::Need(key) => ([NEED, key.word(), 0, 0], Prediction::default()),
            Road::Rematch => (ends(REMATCH), Prediction::default()),
            Road::Refused(number) => ([REFUSED, number, 0, 0], Prediction::default()),
        };
        Ended { ending, road, heights }
    }
}

/// Two heights of 16 bits a word, the first in the low half.
pub fn pairs(heights: &[i16]) -> impl Iterator<Item = u32> {
    heights.chunks(2).map(|two| u32::from(two[0] as u16) | u32::from(two[1] as u16) << 16)
}

impl super::Script for Roads {
    const ANSWER: usize = ANSWER;

    fn new(pack: &[u8], arena: &[u8]) -> Self {
        Self { state: State::new(pack, arena), wrote: false }
    }

    fn answered(&mut self, r: &Record, pack: &[u8], arena: &mut [u8], out: &mut Vec<u32>) {
        let Ended { ending, road, heights } = self.taken(r, pack, arena);
        let from = out.len();
        out.extend(ending);
        out.extend([self.state.session.words.is[CLOCK], self.state.session.ages()]);
        let figures = [figure(road.behind_m), road.end, figure(road.end_m)];
        out.extend([road.len as u32, road.behind as u32]);
        out.extend(figures);
        out.push(road.confidence.into());
        out.resize(from + HEAD, 0);
        out.extend(pairs(&heights));
    }

    fn marked(&mut self, record: &Record, pack: &[u8], arena: &mut [u8]) -> u32 {
        let Ended { ending, road, heights } = self.taken(record, pack, arena);
        let words = [ending[0], road.len as u32, figure(road.end_m), road.confidence.into()];
        words.into_iter().fold(heights[1] as u16 as u32, u32::wrapping_add)
    }

    fn wind(&mut self, clock: u32) {
        self.state.session.words.is[CLOCK] = clock;
    }

    fn alone(&self) -> bool {
        !self.wrote && super::Script::alone(&self.state)
    }
}
