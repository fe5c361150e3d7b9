//! Megabytes of a pack a second: written by the program `write_pack` from a text, and read by
//! `Header::parse` and `Tile::parse` of the port. The program's time holds its start and the
//! reading of the text; the same text with a tile that is refused at once shows how much that is.
//! Then the library's two functions by themselves at 1, 4 and 16 MB, so that the growth is seen.
use super::large::{self, Given, Joined};
use crate::ffi_format as port;
use crate::ffi_write::{self as writer, Records};
use crate::profile::ran;
use crate::random::Random;
use crate::tally::Tally;
use std::hint::black_box;
use std::time::Instant;

const PASSES: usize = 40;
/// Of a pack of some megabytes.
const GROWN: usize = 12;

fn best(passes: usize, mut call: impl FnMut()) -> f64 {
    let pass = |_| {
        let start = Instant::now();
        call();
        start.elapsed().as_secs_f64()
    };
    (0..passes).map(pass).fold(f64::INFINITY, f64::min)
}

/// A tile of nodes in order, each with so many edges to the ones behind it, and vertices.
fn tile(col: usize, lon_um: u32, [nodes, edges, vertices]: [usize; 3]) -> String {
    let mut text = format!("tile 0 {col} {lon_um}\n");
    (0..nodes).for_each(|n| text += &format!("node {} {} 2500\n", n % 1_000, n / 1_000));
    (0..edges).for_each(|n| {
        let (from, to) = (n * 7 % nodes.max(1), n * 11 % nodes.max(1));
        text += &format!("edge {from} {to} 0 {} 5 0 1\n", vertices.min(4));
    });
    (0..vertices).for_each(|n| text += &format!("vertex {} {} 2500\n", n % 1_000, n / 1_000));
    text
}

fn text(lon_um: u32, tiles: usize, counts: [usize; 3]) -> String {
    let all = (0..tiles).map(|n| tile(n, lon_um, counts));
    format!("grid 0 0 1000 1 {tiles}\n") + &all.collect::<String>()
}

/// Reads a pack of one row as a host would: the header, and every tile.
fn read(pack: &[u8], tiles: usize) -> usize {
    let sector: &[u8; 512] = pack[..512].try_into().expect("a sector");
    black_box(port::header_parse(black_box(sector)).expect("a header"));
    let len = (pack.len() - 512 - 8 * tiles) / tiles;
    let tile = |n: usize| &pack[512 + 8 * tiles + n * len..][..len];
    (0..tiles).filter(|&n| port::tile_parse(black_box(tile(n)), 0, n as u32, 1_000).is_ok()).count()
}

fn one(name: &str, tiles: usize, counts: [usize; 3]) {
    let (good, bad) = (text(41_023, tiles, counts), text(0, tiles, counts));
    let run = |text: &str| ran("write_pack", &[], text.as_bytes()).stdout;
    let pack = run(&good);
    assert_eq!(read(&pack, tiles), tiles, "every tile is read");
    let (written, refused) = (best(PASSES, || drop(run(&good))), best(PASSES, || drop(run(&bad))));
    let parsed = best(PASSES, || assert_eq!(read(&pack, tiles), tiles));
    let (ms, rate) = (|s: f64| 1e3 * s, |s: f64| pack.len() as f64 / 1e6 / s);
    println!(
        "{name:<30} {} bytes: write_pack {:.2} ms ({:.1} MB/s), its text refused at the first tile {:.2} ms; read {:.3} ms ({:.1} MB/s)",
        pack.len(),
        ms(written),
        rate(written),
        ms(refused),
        ms(parsed),
        rate(parsed)
    );
}

/// Milliseconds of a call on a pack, and its megabytes a second.
fn timed(bytes: usize, call: impl FnMut()) -> String {
    let seconds = best(GROWN, call);
    format!("{:.2} ms ({:.0} MB/s)", 1e3 * seconds, bytes as f64 / 1e6 / seconds)
}

/// The pack's header and every tile, by the directory.
fn parsed(given: &Given, pack: &[u8]) {
    let sector: &[u8; 512] = pack[..512].try_into().expect("a sector");
    black_box(port::header_parse(black_box(sector)).expect("a header"));
    for tile in &given.tiles {
        let [row, col] = tile.key();
        let place = (row * u32::from(given.header.cols) + col) as usize;
        let entry = &pack[512 + 8 * place..][..8];
        let word =
            |n: usize| u32::from_le_bytes(entry[n..n + 4].try_into().expect("4 bytes")) as usize;
        let bytes = &pack[word(0)..word(0) + word(4)];
        black_box(port::tile_parse(black_box(bytes), row, col, given.header.tile).expect("a tile"));
    }
}

/// The library's functions on a pack of so many tiles, in row order and in any.
fn grown(rows: u16, cols: u16, len: usize) {
    let random = &mut Random(0);
    let given = large::given(random, rows, cols, len);
    let records: Vec<Records> = given.tiles.iter().map(Records::of).collect();
    let mut room = vec![0; 49_152];
    let (in_rows, mixed) = (given.joined(&given.rows()), given.joined(&given.mixed(random)));
    let tiles = timed(in_rows.tiles.len(), || {
        for of in &records {
            black_box(writer::tile(of, given.header.tile, &mut room).expect("a tile"));
        }
    });
    let mut out = vec![0; in_rows.tiles.len() + 512 + 8 * usize::from(rows) * usize::from(cols)];
    let bytes = out.len();
    let mut pack = |of: &Joined| {
        timed(bytes, || {
            let length = writer::pack(&given.header, &of.tiles, &of.lengths, &mut out);
            assert_eq!(length, Ok(bytes));
        })
    };
    let (of_rows, of_mixed) = (pack(&in_rows), pack(&mixed));
    let read = timed(bytes, || parsed(&given, &out));
    println!(
        "{:>6} tiles, {bytes:>8} bytes: each written {tiles}, their pack {of_rows}, in any order {of_mixed}; read {read}",
        given.tiles.len()
    );
}

pub fn run() -> Vec<Tally> {
    one("21 tiles of 400 edges", 21, [400, 400, 6_000]);
    one("21 tiles of nodes alone", 21, [6_120, 0, 0]);
    one("64 tiles of nodes alone", 64, [6_120, 0, 0]);
    one("the dearest tile", 1, [3_070, 1_228, 0]);
    one("a tile of nodes alone", 1, [6_120, 0, 0]);
    // Small tiles and large ones, of 1, 4 and 16 MB.
    [(50, 52), (100, 104), (200, 208)].map(|(rows, cols)| grown(rows, cols, 384));
    [(2, 11), (4, 22), (8, 43)].map(|(rows, cols)| grown(rows, cols, 47_232));
    Vec::new()
}
