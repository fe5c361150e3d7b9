//! The functions of `ffi_terrain` that scripts call. While a list is recorded each call goes into
//! it with the sums of its answer and of the state after it, and before it whatever a script set
//! since the last call; docs/REPLAY.md has the list's format. The scripts' answers are held to the
//! Rust's as always, and a list is only kept where none differs.
use crate::ffi_terrain as port;
pub use crate::ffi_terrain::{
    Engine, Header, Key, Lookup, Matched, MatcherWords, Outcome, Point, Prediction, Progress,
    Request, Road, Status, header_parse,
};
use crate::matching::script::figure;
use crate::replay::layout::{self as at, AHEAD, BACK, MATCHER_WORDS, WORDS};
use crate::tally::Tally;
use crate::{cache, engine, list, list_format, matching, road};
use oracle::tile::crc32;
use std::cell::RefCell;
use std::fs;

/// What the program has room for: an arena, a pack, a list.
const ARENA: usize = 147_456;
pub const PACK: usize = 65_532;
const MOST: usize = 1_200_000;

const NEW: u32 = 128;
const SET_ENGINE: u32 = 129;
const SET_MATCHER: u32 = 130;
const SET_BYTE: u32 = 131;
const SET_PACK: u32 = 132;
const SET_LENT: u32 = 133;
const SET_HEADER: u32 = 134;
const FIX: u32 = 140;
const LOST: u32 = 141;
const RESET: u32 = 142;
const STEP: u32 = 143;
const DELIVER: u32 = 144;
const STEP_FROM: u32 = 145;
const OF_AHEAD: u32 = 146;
const OF_HEADER: u32 = 147;
const HEADING: u32 = 148;
const LOADS: u32 = 149;
const STEPS: u32 = 150;
const CACHE_CAPACITY: u32 = 160;
const CACHE_LOADS: u32 = 161;
const CACHE_PAGES: u32 = 162;
const CACHE_GET: u32 = 163;
const CACHE_FETCH: u32 = 164;
const CACHE_LOAD: u32 = 165;
const CACHE_LOAD_FROM: u32 = 166;
const CACHE_CLEAR: u32 = 167;
const NEARBY: u32 = 168;
const MATCHER_RESET: u32 = 169;
const MATCHER_CURRENT: u32 = 170;
const MATCHER_UPDATE: u32 = 171;
const PREDICT: u32 = 172;
/// One past the last kind.
const KINDS: usize = 173;
/// The arena's bytes stay as they are.
const KEPT: u32 = 256;

fn le(words: &[u32]) -> Vec<u8> {
    words.iter().flat_map(|word| word.to_le_bytes()).collect()
}

fn sum(words: &[u32]) -> u32 {
    crc32(&le(words))
}

/// A number of 64 bits, the low word first.
fn wide(n: u64) -> [u32; 2] {
    [n as u32, (n >> 32) as u32]
}

/// A list under way, and the state that the program has after it.
struct List {
    bytes: Vec<u8>,
    /// Records of each kind.
    records: [usize; KINDS],
    engine: Engine,
    matcher: MatcherWords,
    arena: Vec<u8>,
    lent: usize,
    pack: Vec<u8>,
    header: Header,
    /// The pack of the script that is run.
    given: Vec<u8>,
}

impl List {
    fn new() -> Self {
        Self {
            bytes: Vec::new(),
            records: [0; KINDS],
            engine: [0; WORDS],
            matcher: [0; MATCHER_WORDS],
            arena: vec![0; ARENA],
            lent: 0,
            pack: Vec::new(),
            header: Header::default(),
            given: Vec::new(),
        }
    }

    fn put_bytes(&mut self, kind: u32, payload: &[u8]) {
        assert!(payload.len() <= 65_536 && payload.len() % 4 == 0, "{} bytes", payload.len());
        self.bytes.extend(le(&[kind, payload.len() as u32]));
        self.bytes.extend(payload);
        self.records[kind as usize] += 1;
    }

    fn put(&mut self, kind: u32, payload: &[u32]) {
        self.put_bytes(kind, &le(payload));
    }

    /// Words that a script set, and how much of the arena it lends, and bytes of that.
    fn lend(&mut self, engine: &Engine, arena: &[u8]) {
        for n in (0..WORDS).filter(|&n| engine[n] != self.engine[n]).collect::<Vec<_>>() {
            self.put(SET_ENGINE, &[n as u32, engine[n]]);
        }
        self.engine = *engine;
        if arena.len() != self.lent {
            self.put(SET_LENT, &[arena.len() as u32]);
            self.lent = arena.len();
        }
        self.lend_bytes(arena);
    }

    fn lend_bytes(&mut self, arena: &[u8]) {
        for n in (0..arena.len()).filter(|&n| arena[n] != self.arena[n]).collect::<Vec<_>>() {
            self.put(SET_BYTE, &[n as u32, arena[n].into()]);
            self.arena[n] = arena[n];
        }
    }

    fn lend_matcher(&mut self, matcher: &MatcherWords) {
        for n in (0..MATCHER_WORDS).filter(|&n| matcher[n] != self.matcher[n]).collect::<Vec<_>>() {
            self.put(SET_MATCHER, &[n as u32, matcher[n]]);
        }
        self.matcher = *matcher;
    }

    fn lend_header(&mut self, header: Header) {
        if header != self.header {
            self.put(SET_HEADER, &header.words());
            self.header = header;
        }
    }

    fn lend_pack(&mut self, pack: &[u8]) {
        if pack == self.pack {
            return;
        }
        assert!(pack.len() <= PACK, "a pack of {} bytes", pack.len());
        let mut payload = le(&[pack.len() as u32]);
        payload.extend(pack);
        payload.resize(payload.len().next_multiple_of(4), 0);
        self.put_bytes(SET_PACK, &payload);
        self.pack = pack.to_vec();
    }

    /// Where bytes stand in the pack, and how many; of a pack that is they alone where it has not.
    fn place(&mut self, bytes: &[u8]) -> [u32; 2] {
        if bytes.is_empty() {
            return [0, 0];
        }
        let given = self.given.clone();
        self.lend_pack(&given);
        let found = self.pack.windows(bytes.len()).position(|part| part == bytes);
        let from = found.unwrap_or_else(|| {
            self.lend_pack(bytes);
            0
        });
        [from as u32, bytes.len() as u32]
    }

    /// The sum of the state.
    fn state(&self) -> u32 {
        sum(&self.engine) ^ crc32(&self.arena[..self.lent])
    }

    /// A new engine, over an arena that is filled with its first byte or left as it is, whichever
    /// leaves fewer bytes to set.
    fn begin(&mut self, engine: &Engine, arena: &[u8], horizon_m: f32) {
        let first = arena.first().copied().unwrap_or(0);
        let others = arena.iter().filter(|&&byte| byte != first).count();
        let changed = arena.iter().zip(&self.arena).filter(|(is, was)| is != was).count();
        let fill = if changed <= others { KEPT } else { first.into() };
        if fill != KEPT {
            self.arena[..arena.len()].fill(first);
        }
        (self.engine, self.lent) = (*engine, arena.len());
        let state = self.state();
        self.put(NEW, &[arena.len() as u32, figure(horizon_m), fill, state]);
        self.lend_bytes(arena);
    }

    /// A call with what it was given and answered, and what it left.
    fn call(&mut self, kind: u32, given: &[u32], answer: &[u32], engine: &Engine, arena: &[u8]) {
        self.engine = *engine;
        self.arena[..arena.len()].copy_from_slice(arena);
        let state = self.state();
        let sums = [sum(answer), state];
        self.put(kind, &[given, &sums].concat());
    }

    /// A call on the matcher; the state is the last one that was lent.
    fn match_call(&mut self, kind: u32, given: &[u32], answer: &[u32], matcher: &MatcherWords) {
        self.matcher = *matcher;
        let sums = [if kind == MATCHER_RESET { 0 } else { sum(answer) }];
        let state = self.state() ^ sum(matcher);
        self.put(kind, &[given, &sums, &[state]].concat());
    }
}

thread_local! {
    static LIST: RefCell<Option<List>> = const { RefCell::new(None) };
}

/// Does it to the list, if one is recorded.
fn recorded(f: impl FnOnce(&mut List)) {
    LIST.with(|list| {
        if let Some(list) = list.borrow_mut().as_mut() {
            f(list);
        }
    });
}

/// The pack whose bytes the next calls are given.
pub fn pack(pack: &[u8]) {
    recorded(|list| {
        if list.given != pack {
            list.given = pack.to_vec();
        }
    });
}

/// A case of the leaves or the format.
pub fn case(kind: u32, payload: &[u8]) {
    recorded(|list| list.put_bytes(kind, payload));
}

// ---- the engine's calls

pub fn new(engine: &mut Engine, arena: &[u8], horizon_m: f32) {
    port::new(engine, arena, horizon_m);
    recorded(|list| list.begin(engine, arena, horizon_m));
}

pub fn fix(engine: &mut Engine, arena: &[u8], fix: Point, at_ms: u64) -> u32 {
    recorded(|list| list.lend(engine, arena));
    let number = port::fix(engine, arena, fix, at_ms);
    let [low, high] = wide(at_ms);
    let given = [fix.lat as u32, fix.lon as u32, low, high];
    recorded(|list| list.call(FIX, &given, &[number], engine, arena));
    number
}

pub fn lost(engine: &mut Engine, arena: &[u8]) -> u32 {
    recorded(|list| list.lend(engine, arena));
    let number = port::lost(engine, arena);
    recorded(|list| list.call(LOST, &[], &[number], engine, arena));
    number
}

pub fn reset(engine: &mut Engine, arena: &[u8]) -> u32 {
    recorded(|list| list.lend(engine, arena));
    let number = port::reset(engine, arena);
    recorded(|list| list.call(RESET, &[], &[number], engine, arena));
    number
}

/// The words of a step's answer.
fn of_status(status: &Status) -> [u32; 6] {
    match *status {
        Status::Idle => [0; 6],
        Status::Working => [0, 1, 0, 0, 0, 0],
        Status::NoPack => [0, 2, 0, 0, 0, 0],
        Status::OffMap => [0, 3, 0, 0, 0, 0],
        Status::Fetch(offset, len) => {
            let ([low, high], [len, above]) = (wide(offset), wide(len as u64));
            [0, 4, low, high, len, above]
        }
        Status::Refused(number) => [number, 5, 0, 0, 0, 0],
    }
}

pub fn step(engine: &mut Engine, arena: &[u8]) -> Status {
    recorded(|list| list.lend(engine, arena));
    let status = port::step(engine, arena);
    recorded(|list| list.call(STEP, &[], &of_status(&status), engine, arena));
    status
}

pub fn deliver(engine: &mut Engine, arena: &mut [u8], failure: u32, bytes: &[u8]) -> Status {
    let mut place = [0; 2];
    recorded(|list| {
        list.lend(engine, arena);
        place = list.place(bytes);
    });
    let status = port::deliver(engine, arena, failure, bytes);
    let given = [failure, place[0], place[1]];
    recorded(|list| list.call(DELIVER, &given, &of_status(&status), engine, arena));
    status
}

pub fn step_from(engine: &mut Engine, arena: &mut [u8], pack: &[u8]) -> Status {
    recorded(|list| {
        list.lend(engine, arena);
        list.lend_pack(pack);
    });
    let status = port::step_from(engine, arena, pack);
    recorded(|list| list.call(STEP_FROM, &[], &of_status(&status), engine, arena));
    status
}

/// The 15 words of a match's answer, of the 14 that an engine has of it.
fn of_match(w: &[u32]) -> [u32; 15] {
    let mut out = [0; 15];
    (out[0], out[1], out[2]) = (w[0], w[1] >> 16, w[1] % 65_536);
    out[3..].copy_from_slice(&w[2..14]);
    out
}

/// The words of the answers of the calls that only read, where those answer what the words say.
fn of_reads(w: &Engine) -> [(u32, Vec<u32>); 5] {
    let mut ahead = vec![0];
    ahead.extend(&w[at::GENERATION..at::MATCHED]);
    ahead.extend(of_match(&w[at::MATCHED..at::START_Z]));
    ahead.extend(&w[at::START_Z..=at::LEN]);
    ahead.push(0);
    ahead.extend(&w[at::BEHIND..=at::BEHIND_LEN]);
    ahead.push(0);
    ahead.extend(&w[at::BEHIND_M..at::FAILURES]);
    ahead.push((w[at::MATCHED] == 1 && w[at::LEN] > 1).into());
    let mut header = vec![0, 0];
    header.resize(15, 0);
    if w[at::PHASE] == 1 {
        header[1] = 1;
        header[2..].copy_from_slice(&w[at::HEADER..at::SLOTS]);
    }
    [
        (OF_AHEAD, ahead),
        (OF_HEADER, header),
        (HEADING, vec![0, w[at::HEADING], w[at::HEADING + 1]]),
        (LOADS, vec![0, w[at::LOADS]]),
        (STEPS, vec![0, w[at::STEPS]]),
    ]
}

pub fn reads_agree(w: &Engine, arena: &[u8]) -> bool {
    recorded(|list| list.lend(w, arena));
    let agree = port::reads_agree(w, arena);
    if agree {
        for (kind, answer) in of_reads(w) {
            recorded(|list| list.call(kind, &[], &answer, w, arena));
        }
    }
    agree
}

// ---- the parts

fn of_lookup(answer: &Lookup) -> [u32; 6] {
    match *answer {
        Lookup::Ready(first, len) => {
            let ([first, a], [len, b]) = (wide(first as u64), wide(len as u64));
            [0, 0, first, a, len, b]
        }
        Lookup::Missing => [0, 1, 0, 0, 0, 0],
        Lookup::Absent => [0, 2, 0, 0, 0, 0],
        Lookup::Refused(number) => [number, 3, 0, 0, 0, 0],
    }
}

fn of_request(answer: &Request) -> [u32; 6] {
    match *answer {
        Request::Settled => [0; 6],
        Request::Read(offset, len) => {
            let ([low, high], [len, above]) = (wide(offset), wide(len as u64));
            [0, 1, low, high, len, above]
        }
        Request::Refused(number) => [number, 2, 0, 0, 0, 0],
    }
}

fn of_progress(answer: &Progress) -> [u32; 2] {
    match *answer {
        Progress::Done => [0, 0],
        Progress::More => [0, 1],
        Progress::Failed(number) => [number, 2],
        Progress::Refused(number) => [number, 3],
    }
}

fn of_count(answer: &Result<usize, u32>) -> [u32; 3] {
    match *answer {
        Ok(count) => {
            let [low, high] = wide(count as u64);
            [0, low, high]
        }
        Err(number) => [number, 0, 0],
    }
}

pub fn cache_get(w: &mut Engine, arena: &[u8], header: Header, key: Key) -> Lookup {
    recorded(|list| {
        list.lend(w, arena);
        list.lend_header(header);
    });
    let answer = port::cache_get(w, arena, header, key);
    recorded(|list| list.call(CACHE_GET, &[key.word()], &of_lookup(&answer), w, arena));
    answer
}

pub fn cache_fetch(w: &Engine, arena: &[u8], header: Header, key: Key) -> Request {
    recorded(|list| {
        list.lend(w, arena);
        list.lend_header(header);
    });
    let answer = port::cache_fetch(w, arena, header, key);
    recorded(|list| list.call(CACHE_FETCH, &[key.word()], &of_request(&answer), w, arena));
    answer
}

pub fn cache_load(
    w: &mut Engine,
    arena: &mut [u8],
    header: Header,
    key: Key,
    failure: u32,
    bytes: &[u8],
) -> Progress {
    let mut place = [0; 2];
    recorded(|list| {
        list.lend(w, arena);
        list.lend_header(header);
        place = list.place(bytes);
    });
    let answer = port::cache_load(w, arena, header, key, failure, bytes);
    let given = [key.word(), failure, place[0], place[1]];
    recorded(|list| list.call(CACHE_LOAD, &given, &of_progress(&answer), w, arena));
    answer
}

pub fn cache_load_from(
    w: &mut Engine,
    arena: &mut [u8],
    header: Header,
    key: Key,
    pack: &[u8],
) -> Progress {
    recorded(|list| {
        list.lend(w, arena);
        list.lend_header(header);
        list.lend_pack(pack);
    });
    let answer = port::cache_load_from(w, arena, header, key, pack);
    recorded(|list| list.call(CACHE_LOAD_FROM, &[key.word()], &of_progress(&answer), w, arena));
    answer
}

pub fn cache_clear(w: &mut Engine, arena: &[u8]) -> u32 {
    recorded(|list| list.lend(w, arena));
    let number = port::cache_clear(w, arena);
    recorded(|list| list.call(CACHE_CLEAR, &[], &[number], w, arena));
    number
}

pub fn cache_pages(w: &Engine, arena: &[u8], header: Header, key: Key) -> Result<usize, u32> {
    recorded(|list| {
        list.lend(w, arena);
        list.lend_header(header);
    });
    let answer = port::cache_pages(w, arena, header, key);
    recorded(|list| list.call(CACHE_PAGES, &[key.word()], &of_count(&answer), w, arena));
    answer
}

pub fn cache_capacity(w: &Engine, arena: &[u8]) -> Result<usize, u32> {
    recorded(|list| list.lend(w, arena));
    let answer = port::cache_capacity(w, arena);
    recorded(|list| list.call(CACHE_CAPACITY, &[], &of_count(&answer), w, arena));
    answer
}

pub fn cache_loads(w: &Engine, arena: &[u8]) -> Result<usize, u32> {
    recorded(|list| list.lend(w, arena));
    let answer = port::cache_loads(w, arena);
    recorded(|list| list.call(CACHE_LOADS, &[], &of_count(&answer), w, arena));
    answer
}

pub fn matcher_reset(m: &mut MatcherWords) {
    port::matcher_reset(m);
    recorded(|list| list.match_call(MATCHER_RESET, &[], &[], m));
}

/// The 15 words of a match that was answered, zeros where there is none.
fn of_matched(m: Option<Matched>) -> [u32; 15] {
    m.map_or([0; 15], |m| of_match(&[&[1][..], &m.words()].concat()))
}

pub fn matcher_current(m: &MatcherWords) -> Result<Option<Matched>, u32> {
    recorded(|list| list.lend_matcher(m));
    let answer = port::matcher_current(m);
    let (number, found) = match answer {
        Ok(Some(m)) => (0, Some(m)),
        Ok(None) => (256, None),
        Err(number) => (number, None),
    };
    let words = [&[number][..], &of_matched(found)].concat();
    recorded(|list| list.match_call(MATCHER_CURRENT, &[], &words, m));
    answer
}

fn of_outcome(answer: &Outcome) -> Vec<u32> {
    let (number, outcome, found, key) = match *answer {
        Outcome::Found(m) => (0, 0, Some(m), 0),
        Outcome::Nothing => (256, 1, None, 0),
        Outcome::Need(key) => (5, 2, None, key.word()),
        Outcome::Refused(number) => (number, 3, None, 0),
    };
    [&[number, outcome][..], &of_matched(found), &[key >> 16, key % 65_536]].concat()
}

pub fn matcher_update(
    m: &mut MatcherWords,
    w: &mut Engine,
    arena: &[u8],
    header: Header,
    fix: Point,
    heading: Option<f32>,
) -> Outcome {
    recorded(|list| {
        list.lend(w, arena);
        list.lend_matcher(m);
        list.lend_header(header);
    });
    let answer = port::matcher_update(m, w, arena, header, fix, heading);
    let bits = heading.map_or(0, figure);
    let given = [fix.lat as u32, fix.lon as u32, heading.is_some().into(), bits];
    recorded(|list| {
        list.engine = *w;
        list.match_call(MATCHER_UPDATE, &given, &of_outcome(&answer), m);
    });
    answer
}

/// The keys, no key past the last.
pub fn nearby(header: Header, fix: Point) -> Result<[u32; 4], u32> {
    recorded(|list| list.lend_header(header));
    let answer = port::nearby(header, fix);
    let mut words = vec![answer.err().unwrap_or(0), 0, 0];
    let none = cache::script::NO_KEY;
    for key in answer.unwrap_or([none; 4]) {
        let is = key != none;
        words[1] += u32::from(is);
        words.extend(if is { [key >> 16, key % 65_536] } else { [0, 0] });
    }
    let given = [fix.lat as u32, fix.lon as u32];
    recorded(|list| {
        let (engine, arena) = (list.engine, list.arena[..list.lent].to_vec());
        list.call(NEARBY, &given, &words, &engine, &arena);
    });
    answer
}

fn of_road(answer: &Road) -> Vec<u32> {
    let none = Prediction::default();
    let (number, outcome, key, p) = match *answer {
        Road::Road(p) => (0, 0, 0, p),
        Road::Need(key) => (5, 1, key.word(), none),
        Road::Rematch => (6, 2, 0, none),
        Road::Refused(number) => (number, 3, 0, none),
    };
    let mut words = vec![number, outcome, key >> 16, key % 65_536];
    words.extend(wide(p.len as u64));
    words.extend(wide(p.behind as u64));
    words.extend([figure(p.behind_m), p.end, figure(p.end_m), p.confidence.into()]);
    words
}

pub fn predict(
    w: &mut Engine,
    arena: &[u8],
    header: Header,
    start: Matched,
    horizon: f32,
    ahead: &mut [i16; AHEAD],
    behind: &mut [i16; BACK],
) -> Road {
    recorded(|list| {
        list.lend(w, arena);
        list.lend_header(header);
    });
    // Heights that are lent are all the same.
    let mark = ahead[0];
    let answer = port::predict(w, arena, header, start, horizon, ahead, behind);
    let long = |z: &i16| i32::from(*z) as u32;
    let mut words = of_road(&answer);
    words.extend(ahead.iter().chain(&*behind).map(long));
    let given = [&[1][..], &start.words(), &[figure(horizon), long(&mark)]].concat();
    recorded(|list| list.call(PREDICT, &given, &words, w, arena));
    answer
}

// ---- the list

/// The leaves, the format, tables of refusals and a selection of scripts, held to the Rust, and the
/// list of them.
pub fn write(file: &str) -> Vec<Tally> {
    LIST.set(Some(List::new()));
    // The checksums are over this pack's bytes, which the first scripts need too.
    let first = cache::list::first();
    recorded(|list| list.lend_pack(&first));
    let parts: [(&str, fn(&[u8]) -> Vec<Tally>); 6] = [
        ("leaves", list::count),
        ("format", |_| list_format::count()),
        ("cache", |_| cache::list::count()),
        ("matcher", |_| matching::list::count()),
        ("roads", |_| road::list::count()),
        ("engine", |_| engine::list::count()),
    ];
    let mut tallies = Vec::new();
    let mut before = 0;
    for (name, count) in parts {
        tallies.extend(count(&first));
        recorded(|list| {
            println!("{name}: {} bytes", list.bytes.len() - before);
            before = list.bytes.len();
        });
    }
    let mut list = LIST.take().expect("a list");
    list.bytes.extend([0; 8]);
    let calls = |from: usize, to: usize| list.records[from..to].iter().sum::<usize>();
    println!(
        "{} bytes: {} leaves, {} of the format, {} set up, {} calls of the engine, {} of parts",
        list.bytes.len(),
        calls(0, 64),
        calls(64, 128),
        calls(128, 140),
        calls(140, 160),
        calls(160, KINDS)
    );
    for kind in (FIX..=STEPS).chain(CACHE_CAPACITY..=PREDICT) {
        assert!(list.records[kind as usize] > 0, "no record of kind {kind}");
    }
    assert!(list.bytes.len() <= MOST, "{} bytes", list.bytes.len());
    if tallies.iter().any(Tally::failed) {
        println!("{file} is not written, since some differ");
    } else {
        fs::write(file, &list.bytes).unwrap_or_else(|error| panic!("{file}: {error}"));
    }
    tallies
}
