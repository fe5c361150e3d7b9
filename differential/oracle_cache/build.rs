//! Copies the original to target/terrain_cache and makes the fields of a cache's state public.
use std::{fs, path::Path};

/// A file, and texts of it that say what is private and the same said in public.
type Changes = (&'static str, &'static [(&'static str, &'static str)]);

const FILES: [Changes; 3] =
    [("cache.rs", &[SLOT, LOADING, CACHE]), ("pack.rs", &[]), ("tile.rs", &[TILE])];

const SLOT: (&str, &str) = (
    "struct Slot {
    key: Option<TileKey>,
    len: usize,
    ready: bool,
    /// For a continuation page, the tile's first page.
    part_of: Option<usize>,
}",
    "pub struct Slot {
    pub key: Option<TileKey>,
    pub len: usize,
    pub ready: bool,
    /// For a continuation page, the tile's first page.
    pub part_of: Option<usize>,
}",
);

const LOADING: (&str, &str) = (
    "struct Loading {
    key: TileKey,
    slot: usize,
    offset: u32,
    len: usize,
    done: usize,
}",
    "pub struct Loading {
    pub key: TileKey,
    pub slot: usize,
    pub offset: u32,
    pub len: usize,
    pub done: usize,
}",
);

const CACHE: (&str, &str) = (
    "    arena: &'a mut [u8],
    slots: [Slot; MAX_PAGES],
    used: [Cell<u32>; MAX_PAGES],
    count: usize,
    missing: [Option<TileKey>; MISSING],
    next_missing: usize,
    clock: Cell<u32>,
    loading: Option<Loading>,
",
    "    pub arena: &'a mut [u8],
    pub slots: [Slot; MAX_PAGES],
    pub used: [Cell<u32>; MAX_PAGES],
    pub count: usize,
    pub missing: [Option<TileKey>; MISSING],
    pub next_missing: usize,
    pub clock: Cell<u32>,
    pub loading: Option<Loading>,
",
);

/// Where a tile's bytes lie shows which page a lookup answers.
const TILE: (&str, &str) = (
    "    bytes: &'a [u8],
    pub key: TileKey,
",
    "    pub bytes: &'a [u8],
    pub key: TileKey,
",
);

/// `old` has to stand in `text` exactly once: another original needs another look at the change.
fn changed(file: &str, text: &str, old: &str, new: &str) -> String {
    let times = text.matches(old).count();
    assert_eq!(times, 1, "{file}: the text to be replaced stands there {times} times:\n{old}");
    text.replace(old, new)
}

fn main() {
    let differential = Path::new(env!("CARGO_MANIFEST_DIR")).join("..");
    let copies = differential.join("target/terrain_cache");
    fs::create_dir_all(&copies).expect("target/terrain_cache can be made");
    for (file, changes) in FILES {
        let source = differential.join("target/terrain").join(file);
        println!("cargo:rerun-if-changed={}", source.display());
        let text = fs::read_to_string(source).expect(file);
        let text = changes.iter().fold(text, |text, (old, new)| changed(file, &text, old, new));
        fs::write(copies.join(file), text).expect(file);
    }
}
