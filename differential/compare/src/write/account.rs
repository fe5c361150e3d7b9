//! What `write_pack` has to say to a text, by an account of its own: README, "Write a pack".
use std::collections::HashSet;

/// Why there is no pack, in words, the line that is to blame, and its number: 0 for one that can't
/// be read.
pub type Refusal = (&'static str, usize, u32);

/// The most records of a kind that a tile of 49,152 bytes has, and the program's room.
const MOST: [usize; 3] = [6_140, 2_456, 8_186];
const TILE: usize = 49_152;
const TILES: usize = 3_145_728;
const COUNT: usize = 16_384;
const PACK: usize = 3_932_160;
const LIMIT: i64 = 360_000_000;
/// The longest line that is read.
const LINE: usize = 4_095;

struct Grid {
    line: usize,
    size: u64,
    rows: u64,
    cols: u64,
}

#[derive(Default)]
struct Open {
    line: usize,
    key: [u64; 2],
    lon_um: u64,
    nodes: Vec<[u64; 3]>,
    edges: Vec<[u64; 7]>,
    vertices: usize,
}

/// A tile that is done: its line, key and length.
struct Done {
    line: usize,
    key: [u64; 2],
    len: usize,
}

fn digits(word: &str, most: u64) -> Option<u64> {
    let all = !word.is_empty() && word.bytes().all(|b| b.is_ascii_digit());
    word.parse().ok().filter(|&n| all && n <= most)
}

/// A number of 32 bits with a sign.
fn signed(word: &str) -> Option<i64> {
    match word.strip_prefix('-') {
        Some(rest) => digits(rest, 1 << 31).map(|n| -(n as i64)),
        None => digits(word, (1 << 31) - 1).map(|n| n as i64),
    }
}

/// As many numbers as words, each up to its most.
fn numbers<const N: usize>(words: &[&str], most: [u64; N]) -> Option<[u64; N]> {
    let words: [&str; N] = words.try_into().ok()?;
    let mut all = [0; N];
    for n in 0..N {
        all[n] = digits(words[n], most[n])?;
    }
    Some(all)
}

const U16: u64 = u16::MAX as u64;
const U32: u64 = u32::MAX as u64;

impl Grid {
    /// A grid, and whether a reader takes it.
    fn read(line: usize, words: &[&str]) -> Option<(Self, bool)> {
        let [south, west, rest @ ..] = words else { return None };
        let (south, west) = (signed(south)?, signed(west)?);
        let [size, rows, cols] = numbers(rest, [U32, U16, U16])?;
        let reaches = |from: i64, n: u64| from >= -LIMIT && from + (n * size) as i64 <= LIMIT;
        let some = (1..=U16).contains(&size) && rows > 0 && cols > 0;
        let good = some && reaches(south, rows) && reaches(west, cols);
        Some((Grid { line, size, rows, cols }, good))
    }
}

impl Open {
    fn len(&self) -> usize {
        32 + 8 * self.nodes.len() + 20 * self.edges.len() + 6 * self.vertices
    }

    /// Whether a reader takes the tile, and its nodes are in order.
    fn good(&self, size: u64) -> bool {
        let node = |&[x, y, _]: &[u64; 3]| x <= size && y <= size;
        let order = self.nodes.is_sorted_by_key(|&[x, y, _]| (y, x));
        let edge = |&[from, to, first, vertices, class, flags, group]: &[u64; 7]| {
            let there = from.max(to) < self.nodes.len() as u64;
            let fits = vertices <= U16 && class <= 255 && flags <= 255 && group <= U16;
            there && fits && first + vertices <= self.vertices as u64
        };
        let all = self.nodes.iter().all(node) && self.edges.iter().all(edge);
        self.len() <= TILE && self.lon_um > 0 && order && all
    }

    /// The finished tile behind those before it.
    fn close(self, grid: &Grid, done: &mut Vec<Done>) -> Result<(), Refusal> {
        let (line, key, len) = (self.line, self.key, self.len());
        if line == 0 {
            return Ok(());
        }
        if !self.good(grid.size) {
            return Err(("13 of a tile", line, 13));
        }
        if done.iter().map(|tile| tile.len).sum::<usize>() + len > TILES {
            return Err(("14, the tiles' bytes", line, 14));
        }
        if done.len() == COUNT {
            return Err(("14, the tiles' count", line, 14));
        }
        done.push(Done { line, key, len });
        Ok(())
    }

    /// A record within the tile; whether it could be read.
    fn record(&mut self, words: &[&str]) -> Option<()> {
        match words {
            ["node", rest @ ..] => self.nodes.push(numbers(rest, [U16; 3])?),
            ["edge", rest @ ..] => self.edges.push(numbers(rest, [U32; 7])?),
            ["vertex", rest @ ..] => {
                numbers(rest, [U16; 3])?;
                self.vertices += 1;
            }
            _ => return None,
        }
        Some(())
    }
}

fn unread(why: &'static str, line: usize) -> Refusal {
    (why, line, 0)
}

/// The words of a line that is not passed over.
fn words(line: &str) -> Option<Vec<&str>> {
    let words: Vec<&str> = line.split([' ', '\t', '\r']).filter(|word| !word.is_empty()).collect();
    (!words.is_empty() && !words[0].starts_with('#')).then_some(words)
}

/// The whole pack: its keys, then its length.
fn pack(grid: &Grid, done: &[Done]) -> Result<(), Refusal> {
    let mut keys = HashSet::new();
    for tile in done {
        let [row, col] = tile.key;
        if row >= grid.rows || col >= grid.cols {
            return Err(("13 of a pack, key outside", tile.line, 13));
        }
        if !keys.insert(tile.key) {
            return Err(("13 of a pack, key twice", tile.line, 13));
        }
    }
    let mut len = 512 + 8 * (grid.rows * grid.cols) as usize;
    if len > PACK {
        return Err(("14 of a pack, the directory", grid.line, 14));
    }
    for tile in done {
        len += tile.len;
        if len > PACK {
            return Err(("14 of a pack, with a tile", tile.line, 14));
        }
    }
    Ok(())
}

fn first(line: usize, words: &[&str]) -> Result<Grid, Refusal> {
    let ["grid", rest @ ..] = words else {
        let tile = words[0] == "tile";
        return Err(unread(if tile { "tile before the grid" } else { "no grid" }, line));
    };
    match Grid::read(line, rest) {
        None => Err(unread("line of a grid", line)),
        Some((_, false)) => Err(("13 of a grid", line, 13)),
        Some((grid, true)) => Ok(grid),
    }
}

/// What is wrong with a text, if anything is.
pub fn refusal(text: &str) -> Option<Refusal> {
    walked(text).err()
}

fn walked(text: &str) -> Result<(), Refusal> {
    let (mut grid, mut open, mut done) = (None, Open::default(), Vec::new());
    let lines = text.split_terminator('\n').count();
    for (n, line) in (1..).zip(text.split_terminator('\n')) {
        if line.len() > LINE {
            return Err(unread("line too long", n));
        }
        let Some(words) = words(line) else { continue };
        let Some(of) = &grid else {
            grid = Some(first(n, &words)?);
            continue;
        };
        match words[..] {
            ["tile", ref rest @ ..] => {
                std::mem::take(&mut open).close(of, &mut done)?;
                let [row, col, lon_um] =
                    numbers(rest, [U16, U16, U32]).ok_or(unread("line of a tile", n))?;
                open = Open { line: n, key: [row, col], lon_um, ..Open::default() };
            }
            ["grid", ..] => return Err(unread("second grid", n)),
            _ if open.line == 0 => return Err(unread("record before a tile", n)),
            _ => open.record(&words).ok_or(unread("line of a record", n))?,
        }
        if open.nodes.len() > MOST[0] || open.edges.len() > MOST[1] || open.vertices > MOST[2] {
            return Err(("13, more records than a tile has", open.line, 13));
        }
    }
    let grid = grid.ok_or(unread("no grid at the end", lines + 1))?;
    open.close(&grid, &mut done)?;
    pack(&grid, &done)
}
