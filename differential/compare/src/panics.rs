//! Classes of input at which the Rust panics, doesn't end or answers and the port refuses, each
//! with the smallest that was found, as the rows of a table.
use crate::expected::caught;
use crate::ffi_format as port;
use crate::packs::{LIMIT, edge_words, header, tile, words};
use crate::{random::Random, tally::Tally};
use oracle::geo::{self, Point};
use oracle::pack::{Header, TileKey};
use oracle::tile::{Edge, Node, Tile};
use std::{
    any::Any,
    fmt::Debug,
    fs, iter,
    sync::{Mutex, mpsc},
    thread,
    time::Duration,
};

/// The least number for which a test is true that stays so from there on.
fn least(mut low: u64, mut high: u64, test: impl Fn(u64) -> bool) -> u64 {
    assert!(!test(low) && test(high), "the test turns between {low} and {high}");
    while high - low > 1 {
        let middle = (low + high) / 2;
        *if test(middle) { &mut high } else { &mut low } = middle;
    }
    high
}

fn panics<R>(rust: impl FnOnce() -> R) -> bool {
    caught(rust).is_err()
}

/// What the Rust does, in words.
fn told<R: Debug>(rust: Result<R, Box<dyn Any + Send>>) -> String {
    let words = match rust {
        Ok(answer) if format!("{answer:?}") == "()" => return "takes it".into(),
        Ok(answer) => return format!("answers {answer:?}"),
        Err(words) => words,
    };
    let fixed = words.downcast_ref::<&str>().map(|words| words.to_string());
    let words = fixed.or(words.downcast_ref::<String>().cloned()).unwrap_or_default();
    format!("panics: {words}")
}

const HEAD: &str = "| Function | Smallest input found | The Rust | The port |\n|---|---|---|---|";
/// The document that has the table.
const DOCUMENT: &str = concat!(env!("CARGO_MANIFEST_DIR"), "/../../docs/DIFFERENCES.md");
/// Rows that were printed.
static ROWS: Mutex<Vec<String>> = Mutex::new(Vec::new());

fn put(row: String) {
    println!("{row}");
    ROWS.lock().unwrap().push(row);
}

/// Whether the document has the rows, in this order and with none between or behind them.
fn compare_rows() -> Tally {
    let mut tally = Tally::new("the document's rows");
    let text = fs::read_to_string(DOCUMENT).unwrap_or_default();
    let table = text.split_once(HEAD).map_or("", |(_, table)| table);
    let mut lines = table.lines().skip(1);
    for row in &*ROWS.lock().unwrap() {
        let line = lines.next();
        tally.count(line == Some(row), row, line, row);
    }
    tally.count(lines.next() == Some(""), "behind the last row", "more rows", "none");
    tally
}

/// What a call does, or that it had not ended after two seconds, where others take microseconds.
fn doesnt_end(call: impl FnOnce() -> String + Send + 'static) -> String {
    let (to, from) = mpsc::channel();
    thread::spawn(move || to.send(call()));
    from.recv_timeout(Duration::from_secs(2)).unwrap_or("doesn't end".into())
}

/// A row: function and input, what the Rust does, and the number that the port has to answer.
macro_rules! row {
    ($tally:ident, $name:expr, $given:expr, $rust:expr, $port:expr, $number:literal) => {
        row!($tally, $name, $given, told: told(caught(|| $rust)), $port, $number)
    };
    ($tally:ident, $name:expr, $given:expr, told: $told:expr, $port:expr, $number:literal) => {
        let (given, told) = (&$given, $told);
        $crate::panics::put(format!("| `{}` | {given} | {told} | {} |", $name, $number));
        $tally.same(given, ($name, $port.err(), Some($number)));
    };
}

mod engine;
mod parts;

/// One row and one column of the largest tiles, in the north-east corner of all grids.
fn corner() -> Header {
    let (south, west) = (LIMIT - 65_535, LIMIT - 65_535);
    let grid = Header { tile: 65_535, south, west, rows: 1, cols: 1, ..header(&mut Random(0)) };
    Header { directory: 512, data: 520, total: 520, ..grid }
}

fn headers(tally: &mut Tally) {
    let good = corner();
    let w = &words(&good);
    let (key, entry) = (|row: u64| TileKey { row: row as u16, col: 0 }, &[0; 8]);
    let none = Header { tile: 0, ..good };
    row!(
        tally,
        "Header::key",
        "tile size 0",
        none.key(0, 0),
        port::header_key(&words(&none), 0, 0),
        12
    );
    let row = least(0, 65_535, |row| panics(|| good.origin(key(row))));
    let given = format!("row {row} of a grid with one tile of size 65535 at its north end");
    row!(
        tally,
        "Header::origin",
        given,
        good.origin(key(row)),
        port::header_origin(w, row as u32, 0),
        9
    );
    let large = |tile: u64| Header { tile: tile as u32, south: 0, rows: 3, ..good };
    let size = least(1, 1 << 31, |tile| panics(|| large(tile).origin(key(2))));
    let (large, given) = (large(size), format!("tile size {size}, south 0, row 2 of 3"));
    row!(
        tally,
        "Header::origin",
        given,
        large.origin(key(2)),
        port::header_origin(&words(&large), 2, 0),
        12
    );
    let short = Header { total: 519, ..good };
    let given = "a header that breaks a rule, here total below data; so `key`, `checked`, `origin`, `entry`";
    row!(
        tally,
        "Header::locate",
        given,
        short.locate(entry),
        port::header_locate(&words(&short), entry),
        12
    );
    let lat = LIMIT + 1;
    row!(
        tally,
        "Header::key",
        format!("latitude {lat}"),
        good.key(lat, 0),
        port::header_key(w, lat, 0),
        8
    );
    let given = "row 1 of a grid with one row";
    row!(tally, "Header::origin", given, good.origin(key(1)), port::header_origin(w, 1, 0), 9);
    row!(tally, "Header::entry", given, good.entry(key(1)), port::header_entry(w, 1, 0), 9);
}

fn tiles(tally: &mut Tally) {
    let (key, random) = (TileKey { row: 0, col: 0 }, &mut Random(0));
    let bytes = &tile(random, key, 1, vec![], 32).bytes();
    let empty = Tile::parse(bytes, key, 1).expect("an empty tile");
    row!(
        tally,
        "Tile::node",
        "node 0 of the empty tile",
        empty.node(0),
        port::tile_node(bytes, 0),
        7
    );
    row!(
        tally,
        "Tile::edge",
        "edge 0 of the empty tile",
        empty.edge(0),
        port::tile_edge(bytes, 0),
        7
    );
    row!(
        tally,
        "Tile::incident",
        "node 0 of the empty tile",
        empty.incident(0).count(),
        port::tile_incident(bytes, 0),
        7
    );
    for (index, vertices) in [(0, 0), (1, 0), (1, 1)] {
        let edge = Edge { from: 0, to: 0, first_vertex: 0, vertices, class: 0, flags: 0, group: 0 };
        let given = format!("point {index} of an edge with {vertices} vertices, in the empty tile");
        row!(
            tally,
            "Tile::point",
            given,
            empty.point(&edge, index),
            port::tile_point(bytes, &edge_words(&edge, 0), index),
            7
        );
    }
    let mut one = || tile(random, key, 1, vec![Node { x: 1, y: 1, z: 1 }], 60);
    let bytes = &iter::repeat_with(&mut one).find(|t| t.edges.len() == 1).expect("some").bytes();
    let one = Tile::parse(bytes, key, 1).expect("a tile of one node and one edge");
    let (edge, given) = (one.edge(0), "node 1 of a tile with one node and one edge");
    row!(tally, "Tile::node", given, one.node(1), port::tile_node(bytes, 1), 7);
    row!(tally, "Tile::incident", given, one.incident(1).count(), port::tile_incident(bytes, 1), 7);
    let north = |south: u64| Header { south: south as i32, ..corner() };
    let south = least(0, i32::MAX as u64, |south| {
        panics(|| geo::edge_point(&north(south), &one, &edge, 0))
    });
    let (north, given) = (north(south), format!("a node with y 1 in row 0, south {south}"));
    let port = port::edge_point(&words(&north), bytes, &edge_words(&edge, 0), 0);
    row!(tally, "geo::edge_point", given, geo::edge_point(&north, &one, &edge, 0), port, 12);
    let nodes = [1, 0].map(|x| Node { x, y: 0, z: 0 }).to_vec();
    let bytes = &tile(random, key, 1, nodes, 48).bytes();
    let given = "48 bytes: two nodes at y 0, the first at x 1, the second at x 0";
    let taken = Tile::parse(bytes, key, 1).is_ok();
    let told = if taken { "accepts it" } else { "refuses it" };
    row!(tally, "Tile::parse", given, told: told, port::tile_parse(bytes, 0, 0, 1), 4);
}

fn geometry(tally: &mut Tally) {
    let east =
        |from: i32, to: i32| Point { lat: 0, lon: to }.metres_from(Point { lat: 0, lon: from }, 1);
    let lon = least(0, i32::MAX as u64, |n| panics(|| east(-(n as i32), n as i32))) as i32;
    let given = format!("longitude {lon} from {}; latitudes alike", -lon);
    row!(
        tally,
        "Point::metres_from",
        given,
        east(-lon, lon),
        port::metres_from(0, lon, 0, -lon, 1),
        8
    );
    let (lon, inf) = (LIMIT + 1, f32::INFINITY);
    row!(
        tally,
        "Point::metres_from",
        format!("longitude {lon} from 0"),
        east(0, lon),
        port::metres_from(0, lon, 0, 0, 1),
        8
    );
    // Where a step of the loop leaves the figure as it is; for the one before, the loop ends.
    let stays = |bits: u64| f32::from_bits(bits as u32) - 360.0 == f32::from_bits(bits as u32);
    let bits = least(360f32.to_bits().into(), f32::MAX.to_bits().into(), stays) as u32;
    assert!(geo::turn(0.0, f32::from_bits(bits - 1)).abs() <= 180.0);
    for to in [f32::from_bits(bits), -f32::from_bits(bits), inf, -inf] {
        row!(tally, "geo::turn", format!("0 to {}", f64::from(to)), told: "doesn't end", port::turn(0.0, to), 8);
    }
    for to in [360f32.next_up(), f32::NAN] {
        row!(tally, "geo::turn", format!("0 to {to}"), geo::turn(0.0, to), port::turn(0.0, to), 8);
    }
    row!(tally, "geo::length", "(inf, 0)", geo::length(inf, 0.0), port::length(inf, 0.0), 8);
    let project = || geo::project((inf, 0.0), (0.0, 0.0), (1.0, 0.0));
    row!(
        tally,
        "geo::project",
        "(inf, 0) on (0, 0) to (1, 0)",
        project(),
        port::project(inf, 0.0, 0.0, 0.0, 1.0, 0.0),
        8
    );
}

pub fn print() -> Vec<Tally> {
    let mut tally = Tally::new("the port's numbers");
    println!("{HEAD}");
    headers(&mut tally);
    tiles(&mut tally);
    geometry(&mut tally);
    parts::cache(&mut tally);
    parts::matcher(&mut tally);
    parts::roads(&mut tally);
    engine::calls(&mut tally);
    engine::states(&mut tally);
    println!();
    vec![tally, compare_rows()]
}
