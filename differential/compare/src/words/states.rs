//! Engines on the way, as words: what the rows start from.
use crate::engine::orders;
use crate::ffi_terrain::{self as port, Engine, Header, Key, MatcherWords, Point, Status};
use crate::replay::layout as at;
use oracle_angles::cache::PAGE_BYTES;

pub const PAGES: usize = 8;
/// The second tile of the pack.
const SECOND: u32 = 1;

/// An engine's words and arena, and what calls on it are given beside them.
#[derive(Clone)]
pub struct State {
    pub words: Engine,
    pub arena: Vec<u8>,
    pub pack: Vec<u8>,
    pub header: Header,
    pub matcher: MatcherWords,
    pub key: Key,
    pub fix: Point,
    fetch: (u64, usize),
}

impl State {
    fn new() -> Self {
        let (mut words, arena) = ([0; at::WORDS], vec![0x33; PAGES * PAGE_BYTES]);
        port::new(&mut words, &arena, 10_000.0);
        let pack = orders::network().pack.bytes;
        let header = port::header_parse(pack.first_chunk().expect("a sector")).expect("a header");
        let (fix, key) = (Point { lat: 47_001_500, lon: 8_001_700 }, Key::of(SECOND));
        Self { words, arena, pack, header, matcher: [0; 22], key, fix, fetch: (0, 0) }
    }

    /// The bytes of the last fetch.
    pub fn fetched(&self) -> &[u8] {
        &self.pack[self.fetch.0 as usize..][..self.fetch.1]
    }

    /// A step, and whether it fetches.
    fn step(&mut self) -> bool {
        let Status::Fetch(offset, len) = port::step(&mut self.words, &self.arena) else {
            return false;
        };
        self.fetch = (offset, len);
        true
    }

    /// A step with its read answered.
    fn advance(&mut self) {
        if self.step() {
            let (from, len) = self.fetch;
            let bytes = self.pack[from as usize..][..len].to_vec();
            port::deliver(&mut self.words, &mut self.arena, 0, &bytes);
        }
    }

    fn give(&mut self, lon: i32, at_ms: u64) {
        let fix = Point { lat: 47_001_500, lon };
        assert_eq!(port::fix(&mut self.words, &self.arena, fix, at_ms), 0);
    }

    /// A match, and the road ahead needs the second tile.
    fn matched(mut self) -> Self {
        self.advance();
        self.give(8_001_400, 500);
        self.give(8_001_700, 1_000);
        for _ in 0..20 {
            if self.words[at::NEED..][..2] != [1, SECOND] {
                self.advance();
            }
        }
        assert_eq!(self.words[at::NEED..][..2], [1, SECOND], "the second tile is needed");
        self.matcher.copy_from_slice(&self.words[at::MATCHER..at::MATCHING]);
        self
    }

    /// The match published too.
    fn published(mut self) -> Self {
        let current: [u32; 14] = self.matcher[..14].try_into().expect("14 words");
        self.words[at::MATCHED..at::START_Z].copy_from_slice(&current);
        self
    }

    /// Both tiles ready, the road published, and nothing to do.
    fn idle(self) -> Self {
        let mut state = self.matched();
        (0..20).for_each(|_| state.advance());
        state
    }
}

/// A state by its name.
pub fn state(name: &str) -> State {
    let mut s = State::new();
    match name {
        "fresh" => s,
        "open header" => {
            assert!(s.step());
            s
        }
        "open entry" => {
            s = s.matched().published();
            assert!(s.step());
            s
        }
        "open chunk" => {
            s = s.matched().published();
            s.advance();
            assert!(s.step() && s.words[at::PENDING] == 3);
            s
        }
        "match due" => {
            s = s.idle();
            s.give(8_001_750, 9_000);
            s
        }
        "road due" => {
            s = s.idle();
            s.give(8_001_750, 9_000);
            s.advance();
            assert_eq!(s.words[at::ROAD], 1);
            s
        }
        "idle" => s.idle(),
        _ => panic!("no state {name}"),
    }
}
