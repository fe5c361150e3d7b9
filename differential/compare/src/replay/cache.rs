//! Records of scripts on a cache: the calls, the words that set up states, and the answers.
use super::layout as at;
use super::{Lent, NO_KEY, key_word, maybe};
use crate::cache::script::*;
use crate::ffi;
use crate::record::{self as port, Engine, Header, Key, Lookup, Progress, Request};

/// What a script works on beside pack and arena: the cache's words, which are an engine's, the
/// header that each call is given, and how much of the arena is lent.
#[derive(Clone)]
pub struct Session {
    pub words: Lent<{ at::WORDS }>,
    pub header: Header,
    pub lent: usize,
}

impl Session {
    /// A fresh cache over the arena, with the pack's header; all zeros where that is refused.
    pub fn new(pack: &[u8], arena: &[u8]) -> Self {
        port::pack(pack);
        let mut words = Lent::default();
        port::new(&mut words.is, arena, 10_000.0);
        let sector = pack.first_chunk().copied().unwrap_or([0; 512]);
        let header = port::header_parse(&sector).unwrap_or_default();
        Self { words, header, lent: arena.len() }
    }

    /// One record. A call sees what is lent of the arena, the kinds that set up states all of it.
    pub fn taken(&mut self, record: &Record, pack: &[u8], arena: &mut [u8]) -> Ending {
        match record[0] {
            0..16 => self.called(record, pack, &mut arena[..self.lent]),
            16..28 => {
                self.set(record, arena);
                ends(0)
            }
            _ => ends(OTHER),
        }
    }

    fn called(&mut self, record: &Record, pack: &[u8], arena: &mut [u8]) -> Ending {
        let [kind, key, how, offset, len, _] = *record;
        let (words, header, key) = (&mut self.words.is, self.header, Key::of(key));
        match kind {
            GET => of_lookup(port::cache_get(words, arena, header, key)),
            FETCH => of_request(port::cache_fetch(words, arena, header, key)),
            LOAD => {
                let bytes = part(pack, offset.into(), len as usize);
                of_progress(port::cache_load(words, arena, header, key, how, bytes))
            }
            STEP => of_progress(self.step(key, how, pack, arena)),
            LOAD_FROM => of_progress(port::cache_load_from(words, arena, header, key, pack)),
            CLEAR => match port::cache_clear(words, arena) {
                0 => ends(CLEARED),
                number => refused(number),
            },
            PAGES => of_count(port::cache_pages(words, arena, header, key)),
            CAPACITY => of_count(port::cache_capacity(words, arena)),
            LOADS => of_count(port::cache_loads(words, arena)),
            _ => ends(OTHER),
        }
    }

    /// `fetch`, then `load`, the read answered by the pack's bytes, by 2 where they pass its end, or
    /// by `how` where that is a failure. Where no read is made, `load` is given no bytes.
    fn step(&mut self, key: Key, how: u32, pack: &[u8], arena: &mut [u8]) -> Progress {
        let header = self.header;
        let (failure, bytes) = match port::cache_fetch(&self.words.is, arena, header, key) {
            Request::Read(..) if how != 0 => (how, &[][..]),
            Request::Read(offset, len) => match part(pack, offset, len) {
                bytes if bytes.len() < len => (2, &[][..]),
                bytes => (0, bytes),
            },
            Request::Settled | Request::Refused(_) => (0, &[][..]),
        };
        port::cache_load(&mut self.words.is, arena, header, key, failure, bytes)
    }

    /// A page, place or byte that is not there changes nothing.
    fn set(&mut self, record: &Record, arena: &mut [u8]) {
        let [kind, a, b, ..] = *record;
        let (at, w) = (a as usize, &mut self.words.is);
        match kind {
            SET_CLOCK => w[at::CLOCK] = a,
            SET_USED if at < at::PAGES => w[at::USED + at] = b,
            SET_SLOT if at < at::PAGES => set_slot(w, record),
            SET_PLACE => w[at::NEXT] = a,
            SET_MISSING if at < at::PLACES => {
                w[at::RING + 2 * at..][..2].copy_from_slice(&maybe(b))
            }
            SET_LOADING => set_loading(w, record),
            SET_PENDING => set_pending(w, a, b),
            SET_COUNT => w[at::COUNT] = a,
            SET_BYTE if at < arena.len() => arena[at] = b as u8,
            SET_LENT => self.lent = at.min(arena.len()),
            SET_HEADER => set_header(&mut self.header, a, b),
            SET_LOADS => w[at::LOADS] = a,
            _ => {}
        }
    }

    /// The answer to a record that ended so.
    pub fn answer(&self, ending: Ending, arena: &[u8], out: &mut Vec<u32>) {
        let w = &self.words.is;
        out.extend(ending);
        out.extend([w[at::COUNT], w[at::CLOCK], w[at::NEXT], w[at::LOADS]]);
        let load = &w[at::LOADING..][..6];
        out.extend([key_word(&load[..2])]);
        out.extend(&load[2..]);
        out.push(0);
        let entry = w[at::PENDING] == 2;
        out.extend([w[at::PENDING], if entry { w[at::PENDING + 1] } else { NO_KEY }, 0]);
        for slot in w[at::SLOTS..at::USED].chunks(3) {
            let [kind, key, len] = [slot[0], slot[1], slot[2]];
            let [ready, part] = [kind / 2 % 2, kind / 4];
            out.extend([key_word(&[kind % 2, key]), len, ready + 2 * part]);
        }
        out.extend(&w[at::USED..at::COUNT]);
        out.extend(w[at::RING..at::NEXT].chunks(2).map(key_word));
        out.extend([ffi::crc32(arena), self.lent as u32, 0, 0, 0, 0]);
    }

    /// CRC-32 of the ages.
    pub fn ages(&self) -> u32 {
        ages(&self.words.is)
    }
}

/// CRC-32 of an engine's ages as little-endian words.
pub fn ages(words: &Engine) -> u32 {
    let bytes: Vec<u8> =
        words[at::USED..at::COUNT].iter().flat_map(|age| age.to_le_bytes()).collect();
    ffi::crc32(&bytes)
}

/// `len` bytes of a pack from `offset` on, or what there is of them.
pub fn part(pack: &[u8], offset: u64, len: usize) -> &[u8] {
    let from = usize::try_from(offset).map_or(pack.len(), |from| from.min(pack.len()));
    &pack[from..][..len.min(pack.len() - from)]
}

fn refused(number: u32) -> Ending {
    [REFUSED, number, 0, 0]
}

fn of_lookup(answer: Lookup) -> Ending {
    match answer {
        Lookup::Ready(page, len) => [READY, page as u32, len as u32, 0],
        Lookup::Missing => ends(MISSING),
        Lookup::Absent => ends(ABSENT),
        Lookup::Refused(number) => refused(number),
    }
}

fn of_request(answer: Request) -> Ending {
    match answer {
        Request::Settled => ends(SETTLED),
        Request::Read(offset, len) => [READ, offset as u32, (offset >> 32) as u32, len as u32],
        Request::Refused(number) => refused(number),
    }
}

fn of_progress(answer: Progress) -> Ending {
    match answer {
        Progress::Done => ends(DONE),
        Progress::More => ends(MORE),
        Progress::Failed(number) => [FAILED, number, 0, 0],
        Progress::Refused(number) => refused(number),
    }
}

fn of_count(answer: Result<usize, u32>) -> Ending {
    answer.map_or_else(refused, |count| [IS, count as u32, 0, 0])
}

/// A length past 16 bits and a part past 8 stand in the words, which no state has then; of a part
/// past 30 bits the low ones count.
fn set_slot(w: &mut Engine, record: &Record) {
    let [_, page, key, len, ready, part] = *record;
    let [tag, key] = maybe(key);
    let kind = tag + 2 * u32::from(ready != 0) + (part << 2);
    w[at::SLOTS + 3 * page as usize..][..3].copy_from_slice(&[kind, key, len]);
}

fn set_loading(w: &mut Engine, record: &Record) {
    let [tag, key] = maybe(record[1]);
    let rest = if tag == 1 { record[2..].try_into().expect("four words") } else { [0; 4] };
    w[at::LOADING..][..2].copy_from_slice(&[tag, key]);
    w[at::LOADING + 2..][..4].copy_from_slice(&rest);
}

fn set_pending(w: &mut Engine, what: u32, key: u32) {
    let what = if what < 4 { what } else { 0 };
    w[at::PENDING..][..2].copy_from_slice(&[what, if what == 2 { key } else { 0 }]);
}

fn set_header(h: &mut Header, field: u32, value: u32) {
    match field {
        0 => h.tile = value,
        1 => h.south = value as i32,
        2 => h.west = value as i32,
        3 => h.rows = value as u16,
        4 => h.cols = value as u16,
        5 => h.directory = value,
        6 => h.data = value,
        7 => h.total = value,
        _ => {}
    }
}

impl super::Script for Session {
    const ANSWER: usize = ANSWER;

    fn new(pack: &[u8], arena: &[u8]) -> Self {
        Self::new(pack, arena)
    }

    fn answered(&mut self, r: &Record, pack: &[u8], arena: &mut [u8], out: &mut Vec<u32>) {
        let ending = self.taken(r, pack, arena);
        self.answer(ending, arena, out);
    }

    fn marked(&mut self, record: &Record, pack: &[u8], arena: &mut [u8]) -> u32 {
        self.taken(record, pack, arena)[0].wrapping_add(self.words.is[at::CLOCK])
    }

    fn wind(&mut self, clock: u32) {
        self.words.is[at::CLOCK] = clock;
    }

    fn alone(&self) -> bool {
        self.words.alone()
    }
}
