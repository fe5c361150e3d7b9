//! Number 12 over an engine's words: for each of its causes in document 01 states just outside and
//! just inside, and for each word what its field can't hold. Every call that is given the words is
//! made on each: outside it answers 12 and changes no word, byte or height, inside none does.
mod causes;
mod fields;
pub mod states;

use crate::ffi_terrain::{
    self as port, Engine, Lookup, Matched, Outcome, Point, Progress, Request, Road, Status,
};
use crate::replay::layout as at;
use crate::tally::Tally;
use states::State;
use std::collections::BTreeMap;

/// Which calls a cause is one for.
#[derive(Clone, Copy, PartialEq)]
enum Of {
    /// Words that no engine has: all.
    Words,
    /// What the cache tests, the arena's length among it: all.
    Cache,
    /// What the engine tests alone: its own calls.
    Engine,
}

/// A state with some words set, or less of the arena lent.
struct Row {
    name: String,
    state: &'static str,
    set: Vec<(usize, u32)>,
    lent: Option<usize>,
    of: Of,
    /// Whether 12 is the answer.
    refused: bool,
}

/// A call, and its number: 0 where it is not refused.
type Call = fn(&State, &mut Engine, &mut [u8]) -> u32;

const NEAR: Point = Point { lat: 47_001_500, lon: 8_001_750 };
const FAR: Point = Point { lat: 360_000_001, lon: 0 };

fn of_status(answer: Status) -> u32 {
    if let Status::Refused(number) = answer { number } else { 0 }
}

const OF_ENGINE: [(&str, Call); 15] = [
    ("fix", |_, w, arena| port::fix(w, arena, NEAR, 9_000)),
    ("fix of the same place", |s, w, arena| port::fix(w, arena, s.fix, 9_000)),
    ("fix beyond its limit", |_, w, arena| port::fix(w, arena, FAR, 9_000)),
    ("lost", |_, w, arena| port::lost(w, arena)),
    ("reset", |_, w, arena| port::reset(w, arena)),
    ("step", |_, w, arena| of_status(port::step(w, arena))),
    ("deliver", |s, w, arena| of_status(port::deliver(w, arena, 0, s.fetched()))),
    ("deliver, missed", |_, w, arena| of_status(port::deliver(w, arena, 1, &[]))),
    ("deliver, failure 7", |_, w, arena| of_status(port::deliver(w, arena, 7, &[1]))),
    ("step_from", |s, w, arena| of_status(port::step_from(w, arena, &s.pack))),
    ("ahead", |_, w, arena| port::reads(w, arena)[0]),
    ("header", |_, w, arena| port::reads(w, arena)[1]),
    ("heading", |_, w, arena| port::reads(w, arena)[2]),
    ("loads", |_, w, arena| port::reads(w, arena)[3]),
    ("steps", |_, w, arena| port::reads(w, arena)[4]),
];

fn of_count<T>(answer: Result<T, u32>) -> u32 {
    answer.err().unwrap_or(0)
}

fn of_progress(answer: Progress) -> u32 {
    if let Progress::Refused(number) = answer { number } else { 0 }
}

fn get(s: &State, w: &mut Engine, arena: &[u8]) -> u32 {
    if let Lookup::Refused(n) = port::cache_get(w, arena, s.header, s.key) { n } else { 0 }
}

fn fetch(s: &State, w: &mut Engine, arena: &[u8]) -> u32 {
    if let Request::Refused(n) = port::cache_fetch(w, arena, s.header, s.key) { n } else { 0 }
}

fn update(s: &State, w: &mut Engine, arena: &[u8]) -> u32 {
    let mut m = s.matcher;
    let answer = port::matcher_update(&mut m, w, arena, s.header, NEAR, Some(90.0));
    let Outcome::Refused(number) = answer else {
        return 0;
    };
    assert!(m == s.matcher, "a refused update leaves the matcher");
    number
}

fn predict(s: &State, w: &mut Engine, arena: &[u8]) -> u32 {
    let start = Matched::of(s.matcher[1..14].try_into().expect("13 words"));
    let (mut ahead, mut behind) = ([7; at::AHEAD], [7; at::BACK]);
    match port::predict(w, arena, s.header, start, 10_000.0, &mut ahead, &mut behind) {
        Road::Refused(12) => {
            assert!(ahead == [7; at::AHEAD] && behind == [7; at::BACK], "12 leaves the heights");
            12
        }
        Road::Refused(number) => number,
        Road::Road(_) | Road::Need(_) | Road::Rematch => 0,
    }
}

/// Calls on the parts.
const OF_PARTS: [(&str, Call); 11] = [
    ("cache_get", |s, w, arena| get(s, w, arena)),
    ("cache_fetch", |s, w, arena| fetch(s, w, arena)),
    ("cache_load", |s, w, arena| {
        of_progress(port::cache_load(w, arena, s.header, s.key, 0, s.fetched()))
    }),
    ("cache_load, missed", |s, w, arena| {
        of_progress(port::cache_load(w, arena, s.header, s.key, 1, &[]))
    }),
    ("cache_load_from", |s, w, arena| {
        of_progress(port::cache_load_from(w, arena, s.header, s.key, &s.pack))
    }),
    ("matcher_update", |s, w, arena| update(s, w, arena)),
    ("predict", |s, w, arena| predict(s, w, arena)),
    ("cache_capacity", |_, w, arena| of_count(port::cache_capacity(w, arena))),
    ("cache_loads", |_, w, arena| of_count(port::cache_loads(w, arena))),
    ("cache_pages", |s, w, arena| of_count(port::cache_pages(w, arena, s.header, s.key))),
    ("cache_clear", |_, w, arena| port::cache_clear(w, arena)),
];

/// Makes every call on a row's state.
fn count(tally: &mut Tally, row: &Row, state: &State) {
    let mut words = state.words;
    row.set.iter().for_each(|&(place, word)| words[place] = word);
    let lent = row.lent.unwrap_or(state.arena.len());
    let parts = row.refused && row.of != Of::Engine;
    for (calls, refused) in [(&OF_ENGINE[..], row.refused), (&OF_PARTS, parts)] {
        for (name, call) in calls {
            let (mut after, mut arena) = (words, state.arena.clone());
            let number = call(state, &mut after, &mut arena[..lent]);
            let kept = !refused || after == words && arena == state.arena;
            let expected = if refused { "12, and nothing changed" } else { "not 12" };
            let given = (&row.name, row.state, name);
            tally.count((number == 12) == refused && kept, given, (number, kept), expected);
            tally.end((if refused { "outside, Refused" } else { "inside, not Refused" }, 12));
        }
    }
}

fn compare_rows(name: &str, rows: &[Row]) -> Tally {
    let (mut tally, mut states) = (Tally::new(name), BTreeMap::new());
    for row in rows {
        let state = states.entry(row.state).or_insert_with(|| states::state(row.state));
        count(&mut tally, row, state);
    }
    tally
}

pub fn compare() -> Vec<Tally> {
    vec![
        compare_rows("12, causes", &causes::rows()),
        compare_rows("12, words of no field", &fields::rows()),
        fields::matchers(),
    ]
}
