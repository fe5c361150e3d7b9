//! Copies the original to target/terrain_angles, changes its two angle functions, links libterrain.a.
//! The fields of a matcher's, a cache's and an engine's state are made public, and matcher,
//! prediction and engine count which of their ways they take: neither changes an answer.
mod engine;
mod predict;

use std::{env, fs, path::Path, path::PathBuf};

/// A text, and what stands in its place.
type Change = (&'static str, &'static str);
/// A file, and the changes to it.
type Changes = (&'static str, &'static [Change]);

const FILES: [Changes; 7] = [
    ("cache.rs", CACHE_COUNTED),
    ("engine.rs", engine::COUNTED),
    ("geo.rs", &[(BEARING, BEARING_OF_PORT)]),
    ("matcher.rs", &[MATCHER, LOST, JOINED, HELD, SWITCHED, PAST, INHERITED, REVERSED, NINTH]),
    ("pack.rs", &[]),
    ("predict.rs", predict::COUNTED),
    ("tile.rs", &[]),
];

const CACHE_COUNTED: &[Change] = &[
    SLOT, LOADING, CACHE, NO_PAGES, DROPPED, NO_TILE, NO_ROOM, CORRUPT, WRAPS, FOUND, LOADED,
    ACROSS,
];

const BEARING: &str = "    let degrees = libm::atan2f(east, north).to_degrees();
    if degrees < 0.0 {
        degrees + 360.0
";
/// The port's degrees as a whole; what it refuses goes on to the Rust's own lines.
const BEARING_OF_PORT: &str = "    let answer = crate::terrain_bearing(east, north);
    if answer.number == 0 { return answer.degrees; }
    let degrees = libm::atan2f(east, north).to_degrees();
    if degrees < 0.0 {
        degrees + 360.0
";
const LON_SCALE: &str = "(geo::LAT_UM * libm::cosf((lat as f32 * 1e-6).to_radians())) as u32";
const LON_SCALE_OF_PORT: &str = "crate::terrain_lon_scale_um(lat)";

const SLOT: Change = (
    "struct Slot {
    key: Option<TileKey>,
    len: usize,
    ready: bool,
    /// For a continuation page, the tile's first page.
    part_of: Option<usize>,
}",
    "pub struct Slot {
    pub key: Option<TileKey>,
    pub len: usize,
    pub ready: bool,
    /// For a continuation page, the tile's first page.
    pub part_of: Option<usize>,
}",
);

const LOADING: Change = (
    "struct Loading {
    key: TileKey,
    slot: usize,
    offset: u32,
    len: usize,
    done: usize,
}",
    "pub struct Loading {
    pub key: TileKey,
    pub slot: usize,
    pub offset: u32,
    pub len: usize,
    pub done: usize,
}",
);

const CACHE: Change = (
    "    arena: &'a mut [u8],
    slots: [Slot; MAX_PAGES],
    used: [Cell<u32>; MAX_PAGES],
    count: usize,
    missing: [Option<TileKey>; MISSING],
    next_missing: usize,
    clock: Cell<u32>,
    loading: Option<Loading>,
",
    "    pub arena: &'a mut [u8],
    pub slots: [Slot; MAX_PAGES],
    pub used: [Cell<u32>; MAX_PAGES],
    pub count: usize,
    pub missing: [Option<TileKey>; MISSING],
    pub next_missing: usize,
    pub clock: Cell<u32>,
    pub loading: Option<Loading>,
",
);

const NO_PAGES: Change = (
    "        if self.count == 0 {
",
    "        if self.count == 0 {
            crate::took(crate::Path::NoPages, true);
",
);
const DROPPED: Change = (
    "                if let Some(abandoned) = self.loading.take() {
",
    "                if let Some(abandoned) = self.loading.take() {
                    crate::took(crate::Path::LoadDropped, true);
",
);
const NO_TILE: Change = (
    "                let Some((offset, len)) = header.locate(&entry)? else {
",
    "                let Some((offset, len)) = header.locate(&entry)? else {
                    crate::took(crate::Path::NoTile, true);
",
);
const NO_ROOM: Change = (
    "                let Some(slot) = self.victim(pages).filter(|_| len <= MAX_TILE_BYTES) else {
",
    "                let Some(slot) = self.victim(pages).filter(|_| len <= MAX_TILE_BYTES) else {
                    crate::took(crate::Path::NoRoom, true);
",
);
const CORRUPT: Change = (
    "            self.evict(loading.slot, 1);
            self.forget(key);
",
    "            crate::took(crate::Path::Corrupt, true);
            self.evict(loading.slot, 1);
            self.forget(key);
",
);
const WRAPS: Change = (
    "        self.next_missing = (self.next_missing + 1) % MISSING;
",
    "        self.next_missing = (self.next_missing + 1) % MISSING;
        crate::took(crate::Path::RingWraps, self.next_missing == 0);
",
);
// The clock and the count of loads at their end.
const FOUND: Change = (
    "                self.used[index].set(now);
",
    "                self.used[index].set(now);
                crate::took(crate::Path::ClockWraps, now == 0);
",
);
const LOADED: Change = (
    "            self.loads = self.loads.wrapping_add(1);
",
    "            self.loads = self.loads.wrapping_add(1);
            crate::took(crate::Path::ClockWraps, now == 0);
            crate::took(crate::Path::LoadsWrap, self.loads == 0);
",
);
const ACROSS: Change = (
    "        let now = self.clock.get();
        let age = |page: usize| {
",
    "        let now = self.clock.get();
        let has = |before| {
            let mut heads = self.slots.iter().zip(&self.used).filter(|(slot, _)| slot.key.is_some());
            heads.any(|(_, used)| (used.get() > now) == before)
        };
        crate::took(crate::Path::VictimAcross, has(true) && has(false));
        let age = |page: usize| {
",
);

const MATCHER: Change = (
    "    current: Option<Matched>,
    challenger: Option<(TileId, u16, u8)>,
    misses: u8,
    /// Where along the matched edge the rider's run in its direction began:
    /// the `along_m` of the match onto the edge or of the reversal.
    run_from_m: f32,
",
    "    pub current: Option<Matched>,
    pub challenger: Option<(TileId, u16, u8)>,
    pub misses: u8,
    /// Where along the matched edge the rider's run in its direction began:
    /// the `along_m` of the match onto the edge or of the reversal.
    pub run_from_m: f32,
",
);

const LOST: Change = (
    "            if self.misses >= LOST_FIXES {
",
    "            if self.misses >= LOST_FIXES {
                crate::met(0, self.current.is_some());
",
);
const JOINED: Change = (
    "                // Past the junction at the end of the current edge.
",
    "                crate::met(1, true);
",
);
const HELD: Change = (
    "                if count < SWITCH_FIXES {
",
    "                if count < SWITCH_FIXES {
                    crate::met(2, true);
",
);
const SWITCHED: Change = (
    "                } else {
                    self.challenger = None;
",
    "                } else {
                    crate::met(3, true);
                    self.challenger = None;
",
);
const PAST: Change = (
    "            chosen = *on;
",
    "            chosen = *on;
            crate::met(4, true);
",
);
const INHERITED: Change = (
    "            found.forward = previous.forward;
",
    "            found.forward = previous.forward;
            crate::met(5, found.forward.is_some());
",
);
const REVERSED: Change = (
    "        if !same_run {
",
    "        if !same_run {
            crate::met(6, previous.is_some_and(|p| p.tile == found.tile && p.edge == found.edge));
",
);
const NINTH: Change = (
    "        (value > candidate.cost).then_some(worst)
",
    "        crate::met(7, value == candidate.cost);
        crate::met(8, value > candidate.cost);
        crate::met(9, value < candidate.cost);
        (value > candidate.cost).then_some(worst)
",
);

/// `old` has to stand in `text` exactly once: another original needs another look at the change.
fn changed(file: &str, text: &str, old: &str, new: &str) -> String {
    let times = text.matches(old).count();
    assert_eq!(times, 1, "{file}: the text to be replaced stands there {times} times:\n{old}");
    text.replace(old, new)
}

fn main() {
    let differential = Path::new(env!("CARGO_MANIFEST_DIR")).join("..");
    let copies = differential.join("target/terrain_angles");
    fs::create_dir_all(&copies).expect("target/terrain_angles can be made");
    for (file, changes) in FILES {
        let source = differential.join("target/terrain").join(file);
        println!("cargo:rerun-if-changed={}", source.display());
        let text = fs::read_to_string(source).expect(file);
        let text = changes.iter().fold(text, |text, (old, new)| changed(file, &text, old, new));
        fs::write(copies.join(file), text).expect(file);
    }
    let library = env::var_os("TERRAIN_LIB_DIR")
        .map_or_else(|| differential.join("../target/staticlib"), PathBuf::from);
    println!("cargo:rerun-if-env-changed=TERRAIN_LIB_DIR");
    println!("cargo:rerun-if-changed={}", library.join("libterrain.a").display());
    println!("cargo:rustc-link-search=native={}", library.display());
    println!("cargo:rustc-link-lib=static=terrain");
}
