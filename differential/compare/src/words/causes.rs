//! The causes of number 12 in document 01, each with words just outside and just inside.
use super::states::{PAGES, state};
use super::{Of, Row};
use crate::replay::layout as at;
use oracle_angles::cache::PAGE_BYTES;

const LIMIT: u32 = 360_000_000;
/// In the grid of one row and two columns, and keys outside it.
const INSIDE: u32 = 1;
const OUTSIDE: [u32; 4] = [2, 1 << 16, 1 << 16 | 2, u32::MAX];
const NO_KEY: [u32; 2] = [0, 0];
const KEY: usize = 1;
const EDGES: usize = 3;
const EDGE: usize = 4;

struct Rows {
    of: Of,
    state: &'static str,
    rows: Vec<Row>,
}

/// Words from a place on.
fn from(place: usize, words: &[u32]) -> Vec<(usize, u32)> {
    words.iter().enumerate().map(|(n, &word)| (place + n, word)).collect()
}

fn minus(n: u32) -> u32 {
    n.wrapping_neg()
}

impl Rows {
    fn put(&mut self, name: &str, refused: bool, set: Vec<(usize, u32)>, lent: Option<usize>) {
        let (of, state, name) = (self.of, self.state, name.into());
        self.rows.push(Row { name, state, set, lent, of, refused });
    }

    fn inside(&mut self, name: &str, sets: impl IntoIterator<Item = Vec<(usize, u32)>>) {
        sets.into_iter().for_each(|set| self.put(name, false, set, None));
    }

    fn outside(&mut self, name: &str, sets: impl IntoIterator<Item = Vec<(usize, u32)>>) {
        sets.into_iter().for_each(|set| self.put(name, true, set, None));
    }

    /// A count up to its limit, and above.
    fn limit(&mut self, name: &str, place: usize, limit: u32, above: &[u32]) {
        self.inside(name, [0, limit].map(|n| vec![(place, n)]));
        let above = [limit + 1].into_iter().chain(above.iter().copied());
        self.outside(name, above.map(|n| vec![(place, n)]));
    }

    fn counts(&mut self) {
        self.limit("samples behind", at::BEHIND_LEN, 11, &[u32::MAX]);
        self.limit("samples ahead", at::LEN, 501, &[u32::MAX]);
        self.limit("places of the history", at::HISTORY_LEN, 16, &[u32::MAX]);
        self.limit("reloads", at::RELOADS, 2 * PAGES as u32 + 16, &[65_535]);
        self.limit("failures of a pack that is read", at::FAILURES, 7, &[9, 255]);
        let failed = |n| vec![(at::PHASE, 2), (at::PENDING, 0), (at::FAILURES, n)];
        self.inside("failures of a failed pack", [0, 7, 8].map(failed));
        self.outside("failures of a failed pack", [9, 255].map(failed));
    }

    /// Matched and needed keys, in the grid of the header that was read.
    fn keys(&mut self) {
        for (name, place) in [("matched key", at::MATCHER), ("published key", at::MATCHED)] {
            let key = |key| vec![(place + KEY, key)];
            self.inside(name, [0, INSIDE].map(key));
            self.outside(name, OUTSIDE.map(key));
            let failed = |key| vec![(at::PHASE, 2), (at::PENDING, 0), (place + KEY, key)];
            self.inside("the same of a failed pack", OUTSIDE.map(failed));
        }
        let need = |key| vec![(at::PENDING, 0), (at::NEED, 1), (at::NEED + 1, key)];
        self.inside("needed key", [0, INSIDE].map(need));
        self.outside("needed key", OUTSIDE.map(need));
        let failed = |key| [need(key), vec![(at::PHASE, 2)]].concat();
        self.inside("needed key of a failed pack", OUTSIDE.map(failed));
    }

    /// The same while the header is unread: of this state every key but one is taken out.
    fn unread(&mut self) {
        let w = state("open chunk").words;
        let none = [
            vec![(at::PHASE, 0), (at::PENDING, 0)],
            from(at::NEED, &NO_KEY),
            from(at::MATCHER, &[0; 14]),
            from(at::MATCHED, &[0; 14]),
        ]
        .concat();
        self.inside("no key while unread", [none.clone()]);
        let kept = [(at::NEED, 2), (at::MATCHER, 14), (at::MATCHED, 14)];
        let held = |(place, len)| [none.clone(), from(place, &w[place..][..len])].concat();
        self.outside("a key while unread", kept.map(held));
        let bad = |(n, word)| [none.clone(), vec![(at::HEADER + n, word)]].concat();
        self.inside("a bad header while unread", [(0, 0), (3, 0), (6, 1)].map(bad));
    }

    /// A matched edge, and the challenger's edge and count.
    fn matchers(&mut self) {
        let edges = state("open chunk").words[at::MATCHER + EDGES];
        let edge = |n| vec![(at::MATCHER + EDGE, n)];
        self.inside("matched edge", [0, edges - 1].map(edge));
        self.outside("matched edge", [edges, 65_535].map(edge));
        let none = from(at::MATCHER + EDGES, &[0, 0]);
        self.outside("matched edge of a tile of none", [none]);
        self.inside("published edge", [vec![(at::MATCHED + EDGE, 65_535)]]);
        let challenger = |edge, count| from(at::CHALLENGER_OF, &[1, 0, 99, 7, edge, count]);
        self.inside("challenger", [challenger(6, 0), challenger(0, 1)]);
        let rows = [(0, 2), (0, 255), (7, 0), (65_535, 1)];
        self.outside("challenger", rows.map(|(edge, count)| challenger(edge, count)));
        let far = OUTSIDE.map(|key| from(at::CHALLENGER_OF, &[1, key, 99, 7, 0, 1]));
        self.inside("challenger's key", far);
    }

    fn headings(&mut self) {
        let heading = |degrees: f32| from(at::HEADING, &[1, degrees.to_bits()]);
        let inside = [360.0, -360.0, 0.0, -0.0, 1e-45].map(heading);
        self.inside("heading", inside.into_iter().chain([from(at::HEADING, &[0, 0])]));
        let over = f32::from_bits(360.0_f32.to_bits() + 1);
        let infinite = [f32::INFINITY, f32::NEG_INFINITY, f32::MAX];
        self.outside("heading", [over, -over].into_iter().chain(infinite).map(heading));
        self.outside("heading that is no number", [from(at::HEADING, &[1, 0x7fc0_0000])]);
    }

    fn places(&mut self) {
        let held = state(self.state).words[at::HISTORY_LEN] as usize;
        let fix = [at::FIX + 1, at::FIX + 2];
        let history = (0..held).flat_map(|n| [at::HISTORY + 2 * n, at::HISTORY + 2 * n + 1]);
        for place in fix.into_iter().chain(history) {
            self.inside("place", [LIMIT, minus(LIMIT)].map(|n| vec![(place, n)]));
            let far = [LIMIT + 1, minus(LIMIT + 1), 1 << 31, u32::MAX >> 1];
            self.outside("place", far.map(|n| vec![(place, n)]));
        }
        // Places past the history's length are not read, nor is a fix that is not there.
        self.inside("place past the history", [vec![(at::HISTORY + 2 * held, LIMIT + 1)]]);
    }

    /// Fields are tile, south, west, rows, cols, directory, data, total: one row and two columns.
    fn headers(&mut self) {
        let h = state(self.state).header;
        let field = |(n, word): (usize, u32)| vec![(at::HEADER + n, word)];
        let [north, east] = [LIMIT - h.tile, LIMIT - 2 * h.tile];
        let inside = [(1, minus(LIMIT)), (2, minus(LIMIT)), (1, north), (2, east), (7, h.data)];
        self.inside("header", inside.map(field));
        let sides = [minus(LIMIT + 1), north + 1].map(|n| (1, n));
        let ends = [minus(LIMIT + 1), east + 1].map(|n| (2, n));
        let counts = [(3, 0), (3, 2), (3, 65_535), (4, 0), (4, 1), (4, 3)];
        let parts = [(5, h.directory - 1), (5, h.directory + 1), (6, h.data + 1), (6, h.data - 1)];
        let sizes = [(0, 0), (0, 65_536), (0, u32::MAX), (7, h.data - 1), (7, 0)];
        let rules = sides.into_iter().chain(ends).chain(counts).chain(parts).chain(sizes);
        self.outside("header", rules.map(field));
    }

    /// Fetches that the engine would not make, whatever the cache says of them.
    fn fetches(&mut self) {
        let open = |what, key| from(at::PENDING, &[what, key]);
        let need = |words: [u32; 2]| from(at::NEED, &words);
        self.inside("no open fetch", [open(0, 0)]);
        self.outside("open header that is read", [open(1, 0)]);
        self.outside("open fetch of no needed tile", [need(NO_KEY), need([1, 0])]);
        self.state = "fresh";
        self.inside("open header", [open(0, 0), open(1, 0)]);
        self.outside("open entry while unread", [open(2, 0)]);
        self.state = "open entry";
        self.inside("open entry", [open(0, 0), open(2, INSIDE)]);
        self.outside("open entry of no needed tile", [need(NO_KEY), need([1, 0])]);
    }

    // ---- what the cache tests

    /// A slot's words: key, length, whether it is ready, and the part.
    fn slot(page: usize, key: Option<u32>, len: u32, ready: u32, part: u32) -> Vec<(usize, u32)> {
        let kind = u32::from(key.is_some()) + 2 * ready + 4 * part;
        from(at::SLOTS + 3 * page, &[kind, key.unwrap_or(0), len])
    }

    /// Page 0 holds the first tile, page 1 the load of the second; 2 to 7 are empty.
    fn runs(&mut self) {
        let slot = Self::slot;
        let two = |page: usize, part| {
            [slot(page, Some(9), 8_193, 1, 0), slot(page + 1, None, 0, 0, part)].concat()
        };
        self.inside("run", [slot(7, Some(9), 8_192, 1, 0), two(6, 7), two(2, 3)]);
        let not_read = [(5, 8_193, 1, 0), (8, 100, 1, 0), (95, 100, 0, 0)];
        let not_read = not_read.map(|(page, len, ready, part)| slot(page, None, len, ready, part));
        self.inside("page that starts no run", not_read);
        self.outside("run over the next", [slot(0, Some(0), 8_193, 1, 0)]);
        self.outside("run within another", [[two(5, 6), slot(6, Some(9), 1, 0, 6)].concat()]);
        let past = [(7, 8_193), (7, 65_535), (8, 1), (95, 1)];
        self.outside("run past the count", past.map(|(p, len)| slot(p, Some(9), len, 1, 0)));
        self.outside(
            "run that lacks a part",
            [slot(5, Some(9), 8_193, 1, 0), two(5, 5), two(5, 7)],
        );
        let parts = [3, 5, 6, 7, 97, 255, 256].map(|part| slot(5, None, 0, 0, part));
        self.outside("part of no run", parts);
        self.outside("count", [1, 97, u32::MAX].map(|n| vec![(at::COUNT, n)]));
        self.limit("place of the ring", at::NEXT, 63, &[65, u32::MAX]);
    }

    fn loads(&mut self) {
        let w = state("open chunk").words;
        let [_, key, slot, offset, len, _] = w[at::LOADING..][..6].try_into().expect("6 words");
        let load = |key, slot, len, done| from(at::LOADING, &[1, key, slot, offset, len, done]);
        self.inside("load", [0, 1, len - 1].map(|done| load(key, slot, len, done)));
        self.outside(
            "load that has all",
            [len, len + 1, u32::MAX].map(|n| load(key, slot, len, n)),
        );
        let pages = [0, 2, 7, 8, 95, 96, u32::MAX].map(|slot| load(key, slot, len, 0));
        self.outside("load without its run", pages);
        self.outside("load of another key", [0, 9].map(|key| load(key, slot, len, 0)));
        self.outside("load of another length", [len - 1, len + 1].map(|n| load(key, slot, n, 0)));
        self.outside("load of a ready run", [Self::slot(1, Some(key), len, 1, 0)]);
        let none = from(at::LOADING, &[0; 6]);
        self.outside("open chunk without a load", [none.clone()]);
        self.inside("no load", [[none, vec![(at::PENDING, 0)]].concat()]);
        let entries = [0, key].map(|key| from(at::PENDING, &[2, key]));
        self.outside("open entry of a tile that is ready or loading", entries);
        let missing = [from(at::RING + 2 * 63, &[1, key]), from(at::RING, &[1, key])];
        self.outside("open chunk of a tile that is missing", missing);
    }

    fn arenas(&mut self) {
        let bytes = PAGES * PAGE_BYTES;
        self.put("arena of its pages", false, Vec::new(), Some(bytes));
        for lent in [bytes - 1, bytes - PAGE_BYTES, 0] {
            self.put("arena shorter than its pages", true, Vec::new(), Some(lent));
        }
        self.outside("count past the arena", [9, 96].map(|n| vec![(at::COUNT, n)]));
    }
}

pub fn rows() -> Vec<Row> {
    let mut rows = Rows { of: Of::Engine, state: "open chunk", rows: Vec::new() };
    rows.counts();
    rows.keys();
    rows.unread();
    rows.matchers();
    for state in ["open chunk", "match due", "idle"] {
        rows.state = state;
        rows.headings();
        rows.places();
        rows.headers();
    }
    rows.state = "open chunk";
    rows.fetches();
    (rows.of, rows.state) = (Of::Cache, "open chunk");
    rows.runs();
    rows.loads();
    rows.arenas();
    rows.rows
}
