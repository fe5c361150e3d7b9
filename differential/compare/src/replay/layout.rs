//! Where the fields of an engine stand in its words: include/terrain.h tells the layout.
pub const VERSION: usize = 0;
pub const PHASE: usize = 1;
pub const HEADER: usize = 2;
/// Three words each: 1 for a key, 2 for ready and four times the part; the key; the length.
pub const SLOTS: usize = HEADER + 13;
pub const USED: usize = SLOTS + 3 * PAGES;
pub const COUNT: usize = USED + PAGES;
pub const CLOCK: usize = COUNT + 1;
/// Two words each: whether there is a key, and the key.
pub const RING: usize = CLOCK + 1;
pub const NEXT: usize = RING + 2 * PLACES;
/// Whether there is one, key, slot, offset, length, done.
pub const LOADING: usize = NEXT + 1;
/// What is open, and the key of an entry.
pub const PENDING: usize = LOADING + 6;
pub const LOADS: usize = PENDING + 2;
/// Whether there is one, latitude, longitude, time low and high.
pub const FIX: usize = LOADS + 1;
pub const HISTORY: usize = FIX + 5;
pub const HISTORY_LEN: usize = HISTORY + 2 * 16;
pub const HEADING: usize = HISTORY_LEN + 1;
pub const HEADING_AT: usize = HEADING + 2;
pub const MATCHER: usize = HEADING_AT + 2;
pub const MATCHING: usize = MATCHER + MATCHER_WORDS;
pub const ROAD: usize = MATCHING + 1;
pub const LAST_ROAD: usize = ROAD + 1;
pub const NEED: usize = LAST_ROAD + 3;
pub const RELOADS: usize = NEED + 2;
pub const GENERATION: usize = RELOADS + 1;
pub const AT: usize = GENERATION + 1;
/// Whether there is a match, and its 13 words.
pub const MATCHED: usize = AT + 2;
pub const START_Z: usize = MATCHED + 14;
pub const SAMPLES: usize = START_Z + 1;
pub const LEN: usize = SAMPLES + AHEAD;
pub const BEHIND: usize = LEN + 1;
pub const BEHIND_LEN: usize = BEHIND + BACK;
pub const BEHIND_M: usize = BEHIND_LEN + 1;
pub const END: usize = BEHIND_M + 1;
pub const END_M: usize = END + 1;
pub const CONFIDENCE: usize = END_M + 1;
pub const FAILURES: usize = CONFIDENCE + 1;
pub const HORIZON: usize = FAILURES + 1;
pub const STEPS: usize = HORIZON + 1;
pub const WORDS: usize = STEPS + 1;

/// Pages, places of the ring, samples ahead and behind.
pub const PAGES: usize = 96;
pub const PLACES: usize = 64;
pub const AHEAD: usize = 501;
pub const BACK: usize = 11;

/// Where the fields of a matcher stand in its own words: the current match, the challenger (whether
/// there is one, key, CRC, edges, edge, count), misses, and where the run began.
pub const CHALLENGER: usize = 14;
pub const MISSES: usize = 20;
pub const RUN_FROM: usize = 21;
pub const MATCHER_WORDS: usize = 22;

const _: () = assert!(WORDS == 1_150);
/// The challenger, misses and where the run began of an engine.
pub const CHALLENGER_OF: usize = MATCHER + CHALLENGER;
pub const MISSES_OF: usize = MATCHER + MISSES;
pub const RUN_FROM_OF: usize = MATCHER + RUN_FROM;
