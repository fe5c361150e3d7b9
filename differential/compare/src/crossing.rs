//! The crossing of a transect and a tile against an exact implementation of its own, since the Rust
//! has none: common points as fractions in 128 bits, and every segment of the tile tried.
use crate::expected::NONE;
use crate::ffi_format as port;
use crate::packs::{self, LIMIT, Plain, RULES, SPOILT, sector, words};
use crate::random::{Random, pick};
use crate::{Scale, tally::Tally};
use oracle::geo::Point;
use oracle::pack::{Header, TileKey};
use oracle::tile::{Edge, Node, Tile};

/// Latitude and longitude in millionths, or a difference of two points.
type Place = [i128; 2];

fn less(a: Place, b: Place) -> Place {
    [a[0] - b[0], a[1] - b[1]]
}

fn cross(a: Place, b: Place) -> i128 {
    a[0] * b[1] - a[1] * b[0]
}

fn dot(a: Place, b: Place) -> i128 {
    a[0] * b[0] + a[1] * b[1]
}

/// The point n of d parts of the way along v from a, times d.
fn along(a: Place, v: Place, n: i128, d: i128) -> Place {
    [a[0] * d + v[0] * n, a[1] * d + v[1] * n]
}

/// How a transect and a segment can lie; in those before the dash they have a common point.
const WAYS: [&str; 13] = [
    "across",
    "touching",
    "overlapping in line",
    "touching in line",
    "transect a point on it",
    "segment a point on it",
    "points equal",
    "- past each other",
    "- parallel",
    "- apart in line",
    "- transect a point off it",
    "- segment a point off it",
    "- points apart",
];

fn meets(way: &str) -> bool {
    !way.starts_with('-')
}

/// Whether p is a point of the segment that goes from a by v.
fn on(p: Place, a: Place, v: Place) -> bool {
    let (n, d) = (dot(less(p, a), v), dot(v, v));
    (0..=d).contains(&n) && along(a, v, n, d) == [p[0] * d, p[1] * d]
}

/// Segments on lines with one common point, by the fractions where it lies on each.
fn lines_cross(a: Place, u: Place, c: Place, v: Place) -> &'static str {
    let (w, det) = (less(c, a), cross(u, v));
    let (sign, d) = (det.signum(), det.abs());
    let (t, s) = (sign * cross(w, v), sign * cross(w, u));
    assert_eq!(along(a, u, t, d), along(c, v, s, d), "the common point of the lines");
    match [t, s].iter().all(|n| (0..=d).contains(n)) {
        true if [t, s].iter().all(|n| (1..d).contains(n)) => "across",
        true => "touching",
        false => "- past each other",
    }
}

/// Segments on parallel lines, by where the ends of one lie along the other.
fn lines_run_along(a: Place, u: Place, c: Place, v: Place) -> &'static str {
    let (w, d) = (less(c, a), dot(u, u));
    let (p, q) = (dot(w, u), dot(w, u) + dot(v, u));
    let (low, high) = (p.min(q), p.max(q));
    match along(a, u, p, d) == [c[0] * d, c[1] * d] {
        false => "- parallel",
        true if high < 0 || d < low => "- apart in line",
        true if high == 0 || d == low => "touching in line",
        true => "overlapping in line",
    }
}

fn way([a, b]: [Place; 2], [c, e]: [Place; 2]) -> &'static str {
    let (u, v) = (less(b, a), less(e, c));
    match (u == [0, 0], v == [0, 0]) {
        (true, true) if a == c => "points equal",
        (true, true) => "- points apart",
        (true, false) if on(a, c, v) => "transect a point on it",
        (true, false) => "- transect a point off it",
        (false, true) if on(c, a, u) => "segment a point on it",
        (false, true) => "- segment a point off it",
        (false, false) if cross(u, v) == 0 => lines_run_along(a, u, c, v),
        (false, false) => lines_cross(a, u, c, v),
    }
}

/// A tile's segments with their edge and number.
fn segments(h: &Header, tile: &Tile, key: TileKey) -> Vec<([u32; 2], [Place; 2])> {
    let mut all = Vec::new();
    for n in 0..tile.edge_count() {
        let edge = tile.edge(n as u16);
        let place = |index| {
            let p = Point::of(h, key, tile.point(&edge, index));
            [p.lat.into(), p.lon.into()]
        };
        for s in 0..Tile::points(&edge) - 1 {
            all.push(([n as u32, s as u32], [place(s), place(s + 1)]));
        }
    }
    all
}

fn beyond(end: [i32; 2]) -> bool {
    end.iter().any(|place| !(-LIMIT..=LIMIT).contains(place))
}

/// What a call is given.
#[derive(Debug)]
struct Given<'a> {
    transect: [[i32; 2]; 2],
    header: &'a Header,
    key: TileKey,
    bytes: &'a [u8],
}

/// The number that refuses a call, in document 01's order.
fn refusal(given: &Given) -> Option<u32> {
    let (h, key) = (given.header, given.key);
    let ruled = Header::parse(&sector(&words(h))).is_ok();
    let tests = [
        (12, !ruled),
        (8, given.transect.into_iter().any(beyond)),
        (9, key.row >= h.rows || key.col >= h.cols),
        (4, Tile::parse(given.bytes, key, h.tile).is_err()),
    ];
    tests.into_iter().find(|(_, refused)| *refused).map(|(number, _)| number)
}

fn count(tally: &mut Tally, given: &Given) {
    let Given { transect: transect @ [first, second], header, key, bytes } = given;
    let port = port::crossing(*first, *second, &words(header), [key.row, key.col], bytes);
    if let Some(number) = refusal(given) {
        tally.end(("refused", number));
        return tally.count(port == Err(number), given, &port, number);
    }
    let tile = Tile::parse(bytes, *key, header.tile).expect("a tile that is not refused");
    let transect = transect.map(|end| end.map(i128::from));
    let mut meeting = Vec::new();
    for (name, segment) in segments(header, &tile, *key) {
        let way = way(transect, segment);
        tally.end((way, 0));
        meeting.extend(meets(way).then_some(name));
    }
    let same = match &port {
        Ok(named) => meeting.contains(named),
        Err(number) => *number == NONE && meeting.is_empty(),
    };
    tally.end((if meeting.is_empty() { "answered none" } else { "answered a segment" }, 0));
    tally.count(same, given, &port, meeting);
}

/// Few nodes, edges and vertices on few places, so that points, lines and ends are often common;
/// vertices may lie past the tile.
fn tile(random: &mut Random, key: TileKey, size: u32) -> Plain {
    let reach = pick(&[1, 2, 3, 6, 40, size], random).min(size);
    let node = |random: &mut Random, reach: u32| {
        let [x, y] = [0; 2].map(|_| random.below(u64::from(reach) + 1) as u16);
        Node { x, y, z: 0 }
    };
    let nodes: Vec<Node> = (0..1 + random.below(5)).map(|_| node(random, reach)).collect();
    let mut vertices = Vec::new();
    let edges = (0..random.below(5)).map(|_| {
        let [from, to] = [0; 2].map(|_| random.below(nodes.len() as u64) as u16);
        let (first_vertex, count) = (vertices.len() as u32, random.below(4) as u16);
        let reach = pick(&[reach, reach, reach + 1, 65_535], random).min(65_535);
        vertices.extend((0..count).map(|_| node(random, reach)));
        Edge { from, to, first_vertex, vertices: count, class: 5, flags: 0, group: 0 }
    });
    let edges = edges.collect();
    let (starts, entries) = (Vec::new(), Vec::new());
    let mut plain = Plain { key, lon_um: 1, nodes, starts, entries, edges, vertices };
    plain.sort();
    plain
}

/// An end at or about the tile, on the line of a segment, or at the ends of what is allowed.
fn end(random: &mut Random, all: &[[Place; 2]], corner: Place) -> [i32; 2] {
    let [p, q] = if all.is_empty() { [corner; 2] } else { pick(all, random) };
    let [row, col] = [0; 2].map(|_| i128::from(random.between(-2, 4)));
    let (k, few) = (i128::from(random.between(-2, 3)), i128::from(random.between(1, 3)));
    let limits = [-LIMIT, LIMIT].map(i128::from);
    let far = [0; 2].map(|_| i128::from(random.within(LIMIT)));
    let limit = [pick(&limits, random), pick(&limits, random)];
    let past = [limit[0] + limit[0].signum() * i128::from(random.below(2)), far[1]];
    let place = match random.below(24) {
        0..5 => p,
        5..10 => [corner[0] + row, corner[1] + col],
        10..13 => [p[0] + row, p[1] + col],
        13..19 => along(p, less(q, p), k, 1),
        19..21 => [p[0] + (q[0] - p[0]) / few, p[1] + (q[1] - p[1]) / few],
        21 => far,
        22 => limit,
        _ => pick(&[past, [past[1], past[0]]], random),
    };
    place.map(|n| n.clamp(i32::MIN.into(), i32::MAX.into()) as i32)
}

/// One tile, and transects about it; now and then a header, a key or bytes that are refused.
fn about_a_tile(tally: &mut Tally, random: &mut Random) {
    let good = packs::header(random);
    let last = |random: &mut Random, tiles: u16| {
        pick(&[0, tiles - 1, random.below(tiles.into()) as u16], random)
    };
    let key = TileKey { row: last(random, good.rows), col: last(random, good.cols) };
    let plain = tile(random, key, good.tile);
    let bytes = plain.bytes();
    let parsed = Tile::parse(&bytes, key, good.tile).expect("a good tile");
    let all: Vec<_> = segments(&good, &parsed, key).into_iter().map(|(_, places)| places).collect();
    let (south, west) = good.origin(key);
    let broken = packs::broken(random, random.0 % RULES);
    let outside = TileKey { row: pick(&[key.row, good.rows], random), col: good.cols };
    let full = !plain.edges.is_empty() && !plain.vertices.is_empty();
    for _ in 0..16 {
        let first = end(random, &all, [south.into(), west.into()]);
        let second = end(random, &all, [south.into(), west.into()]);
        let transect = [first, pick(&[first, second, second, second, second, second], random)];
        let (mut header, mut key, mut spoilt) = (&good, key, None);
        match random.below(48) {
            0 => header = &broken,
            1 => key = outside,
            2 if full => {
                let way = random.below(SPOILT);
                spoilt = Some(packs::spoilt(random, &plain, good.tile, way));
            }
            _ => {}
        }
        let bytes = spoilt.as_deref().unwrap_or(&bytes);
        count(tally, &Given { transect, header, key, bytes });
    }
}

/// An edge with as many vertices as it can have, all at its start, so that its last segment, number
/// 65,535, is the only one with a length.
fn longest_edge(tally: &mut Tally, random: &mut Random) {
    let header =
        Header { tile: 1_000, south: 0, west: 0, rows: 1, cols: 1, ..packs::header(random) };
    let header = Header { directory: 512, data: 520, total: 520, ..header };
    let key = TileKey { row: 0, col: 0 };
    let nodes = vec![Node { x: 0, y: 0, z: 0 }, Node { x: 1_000, y: 1_000, z: 0 }];
    let (vertices, first_vertex) = (vec![nodes[0]; 65_535], 0);
    let edge =
        Edge { from: 0, to: 1, first_vertex, vertices: 65_535, class: 5, flags: 0, group: 0 };
    let (starts, entries, edges) = (Vec::new(), Vec::new(), vec![edge]);
    let mut plain = Plain { key, lon_um: 1, nodes, starts, entries, edges, vertices };
    plain.link();
    let bytes = &plain.bytes();
    for transect in [[[0, 1], [1, 0]], [[1_000, 1_000]; 2], [[0, 0]; 2], [[0, 1]; 2]] {
        count(tally, &Given { transect, header: &header, key, bytes });
    }
}

pub fn compare(scale: &Scale) -> Vec<Tally> {
    let mut tally = Tally::over("crossing", scale, scale.crossings, |tally, random, n| {
        if n == 0 {
            longest_edge(tally, random);
        }
        about_a_tile(tally, random)
    });
    let refused = [12, 8, 9, 4].map(|number| ("refused", number));
    for met in WAYS.map(|way| (way, 0)).into_iter().chain(refused) {
        let missing = (!tally.ended(met)).then(|| format!("never met: {met:?}"));
        tally.told(0, missing);
    }
    vec![tally]
}
