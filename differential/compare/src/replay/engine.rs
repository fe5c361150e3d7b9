//! Records of scripts on an engine and its cache.
use super::cache::{ages, part};
use super::layout as at;
use super::{Lent, key_word, road};
use crate::cache::script::{Ending, Record, ends};
use crate::engine::script::{self, *};
use crate::ffi;
use crate::record::{self as port, Header, Key, Lookup, Point, Progress, Status};
use oracle_angles::cache::PAGE_BYTES;

/// What a script works on beside packs and arena.
#[derive(Clone)]
pub struct State {
    words: Lent<{ at::WORDS }>,
    /// How much of the arena is lent.
    lent: usize,
    /// The number of the pack in use.
    number: u32,
    /// The last fetch that a step answered.
    offset: u64,
    len: usize,
    /// The calls that only read answered what the words say.
    reads: bool,
}

fn refused(number: u32) -> Ending {
    [REFUSED, number, 0, 0]
}

/// Pack number `number`: empty where there is none, or where it would pass the end.
fn numbered(packs: &[u8], number: u32) -> &[u8] {
    let word = |at: usize| {
        packs.get(at..).and_then(|rest| rest.first_chunk()).map_or(0, |w| u32::from_le_bytes(*w))
    };
    if word(0) <= number {
        return &[];
    }
    let at = 4 + 8 * number as usize;
    let (offset, len) = (word(at), word(at + 4) as usize);
    Some(part(packs, offset.into(), len)).filter(|pack| pack.len() == len).unwrap_or(&[])
}

impl State {
    fn new(arena: &[u8]) -> Self {
        let mut words = Lent::default();
        port::new(&mut words.is, arena, 10_000.0);
        Self { words, lent: arena.len(), number: 0, offset: 0, len: 0, reads: true }
    }

    /// One record. A new engine sees all of the arena, every other call what is lent of it.
    fn taken(&mut self, record: &Record, packs: &[u8], arena: &mut [u8]) -> Ending {
        let [kind, first, ..] = *record;
        let pack = numbered(packs, self.number);
        port::pack(pack);
        if kind == NEW {
            return self.begin(record, arena);
        }
        let arena = &mut arena[..self.lent];
        let words = &mut self.words.is;
        match kind {
            FIX => self.fix(record, arena),
            LOST => of_taken(port::lost(words, arena)),
            RESET => {
                self.number = first;
                of_taken(port::reset(words, arena))
            }
            STEP => {
                let answer = port::step(words, arena);
                self.stepped(answer)
            }
            DELIVER => self.deliver(first, pack, arena),
            STEP_FROM => {
                let answer = port::step_from(words, arena, pack);
                self.stepped(answer)
            }
            GET | LOAD_FROM | CLEAR => self.direct(kind, Key::of(first), pack, arena),
            SET => self.set(record),
            _ => ends(OTHER),
        }
    }

    /// A new engine over the first pages of the arena, which alone are lent from then on.
    fn begin(&mut self, record: &Record, arena: &[u8]) -> Ending {
        self.lent = (record[1] as usize * PAGE_BYTES).min(arena.len());
        let horizon = f32::from_bits(record[2]);
        let horizon = if horizon.is_nan() { f32::NAN } else { horizon };
        port::new(&mut self.words.is, &arena[..self.lent], horizon);
        ends(DONE)
    }

    fn fix(&mut self, record: &Record, arena: &[u8]) -> Ending {
        let [_, lat, lon, low, high, _] = *record;
        let at_ms = u64::from(low) | u64::from(high) << 32;
        let fix = Point { lat: lat as i32, lon: lon as i32 };
        of_taken(port::fix(&mut self.words.is, arena, fix, at_ms))
    }

    /// A fetch is remembered; with any other answer the one before stays.
    fn stepped(&mut self, answer: Status) -> Ending {
        match answer {
            Status::Idle => ends(IDLE),
            Status::Working => ends(WORKING),
            Status::NoPack => ends(NO_PACK),
            Status::OffMap => ends(OFF_MAP),
            Status::Fetch(offset, len) => {
                (self.offset, self.len) = (offset, len);
                [FETCH, offset as u32, (offset >> 32) as u32, len as u32]
            }
            Status::Refused(number) => refused(number),
        }
    }

    fn deliver(&mut self, how: u32, pack: &[u8], arena: &mut [u8]) -> Ending {
        let bytes = part(pack, self.offset, self.len);
        let (failure, bytes) = match how {
            BYTES | SHORT if bytes.len() < self.len => (2, &[][..]),
            BYTES => (0, bytes),
            SHORT => (0, &bytes[..bytes.len().saturating_sub(1)]),
            MISSED | PAST => (how, &[][..]),
            _ => (7, &[][..]),
        };
        let answer = port::deliver(&mut self.words.is, arena, failure, bytes);
        self.stepped(answer)
    }

    /// A call on the engine's cache, given the engine's header.
    fn direct(&mut self, kind: u32, key: Key, pack: &[u8], arena: &mut [u8]) -> Ending {
        let words = &mut self.words.is;
        let header = Header::of(words[at::HEADER..at::SLOTS].try_into().expect("13 words"));
        match kind {
            GET => match port::cache_get(words, arena, header, key) {
                Lookup::Ready(page, len) => [READY, page as u32, len as u32, 0],
                Lookup::Missing => ends(MISSING),
                Lookup::Absent => ends(ABSENT),
                Lookup::Refused(number) => refused(number),
            },
            LOAD_FROM => match port::cache_load_from(words, arena, header, key, pack) {
                Progress::Done => ends(LOADED),
                Progress::More => ends(MORE),
                Progress::Failed(number) => [FAILED, number, 0, 0],
                Progress::Refused(number) => refused(number),
            },
            _ => match port::cache_clear(words, arena) {
                0 => ends(CLEARED),
                number => refused(number),
            },
        }
    }

    fn set(&mut self, record: &Record) -> Ending {
        let [_, which, value, page, ..] = *record;
        let w = &mut self.words.is;
        match which {
            script::CLOCK => w[at::CLOCK] = value,
            script::USED if (page as usize) < at::PAGES => w[at::USED + page as usize] = value,
            script::LOADS => w[at::LOADS] = value,
            script::STEPS => w[at::STEPS] = value,
            script::GENERATION => w[at::GENERATION] = value,
            _ => {}
        }
        ends(IS_SET)
    }

    /// CRC-32 of the header's words and a zero, where it is known.
    fn header_sum(&self) -> u32 {
        let w = &self.words.is;
        if w[at::PHASE] != 1 {
            return 0;
        }
        let bytes = w[at::HEADER..at::SLOTS].iter().chain(&[0]).flat_map(|word| word.to_le_bytes());
        ffi::crc32(&bytes.collect::<Vec<_>>())
    }

    /// The words before the heights.
    fn head(&self, ending: Ending, arena: &[u8]) -> [u32; HEAD] {
        let w = &self.words.is;
        let mut out = [0; HEAD];
        let mut put = |at: usize, words: &[u32]| out[at..][..words.len()].copy_from_slice(words);
        put(0, &ending);
        put(4, &[w[at::STEPS], w[at::LOADS], w[at::GENERATION]]);
        put(7, &[(w[at::PHASE] == 1).into(), self.header_sum()]);
        put(11, &[w[at::CLOCK], ages(w)]);
        put(13, &w[at::AT..at::MATCHED]);
        put(15, &w[at::MATCHED..at::START_Z]);
        put(
            29,
            &[
                w[at::START_Z],
                w[at::LEN],
                w[at::BEHIND_LEN],
                w[at::BEHIND_M],
                w[at::END],
                w[at::END_M],
            ],
        );
        put(35, &[w[at::CONFIDENCE], w[at::PHASE], w[at::FAILURES]]);
        put(38, &w[at::MATCHING..at::NEED]);
        put(43, &[key_word(&w[at::NEED..][..2]), w[at::RELOADS], w[at::HISTORY_LEN]]);
        put(48, &[ffi::crc32(arena), w[at::PENDING]]);
        put(50, &w[at::FIX..at::HISTORY]);
        if w[at::HEADING] == 1 {
            put(9, &w[at::HEADING..at::HEADING_AT]);
            put(46, &w[at::HEADING_AT..at::MATCHER]);
        }
        out
    }
}

fn of_taken(number: u32) -> Ending {
    if number == 0 { ends(DONE) } else { refused(number) }
}

impl super::Script for State {
    const ANSWER: usize = ANSWER;

    fn new(_: &[u8], arena: &[u8]) -> Self {
        Self::new(arena)
    }

    fn answered(&mut self, r: &Record, packs: &[u8], arena: &mut [u8], out: &mut Vec<u32>) {
        let ending = self.taken(r, packs, arena);
        self.reads &= port::reads_agree(&self.words.is, &arena[..self.lent]);
        out.extend(self.head(ending, arena));
        let w = &self.words.is;
        let heights = w[at::SAMPLES..at::LEN].iter().chain(&w[at::BEHIND..at::BEHIND_LEN]);
        out.extend(road::pairs(&heights.map(|&z| z as i16).collect::<Vec<_>>()));
    }

    fn marked(&mut self, record: &Record, packs: &[u8], arena: &mut [u8]) -> u32 {
        let [how, first, ..] = self.taken(record, packs, arena);
        let w = &self.words.is;
        let counts = [at::CLOCK, at::STEPS, at::GENERATION];
        let places = counts.into_iter().chain([at::LEN, at::END_M, at::SAMPLES + 1]);
        let sum = places.map(|at| w[at] & if at == at::SAMPLES + 1 { 0xffff } else { u32::MAX });
        sum.fold(how.wrapping_add(first), u32::wrapping_add)
    }

    fn wind(&mut self, clock: u32) {
        self.words.is[at::CLOCK] = clock;
    }

    fn alone(&self) -> bool {
        self.reads && self.words.alone()
    }
}
