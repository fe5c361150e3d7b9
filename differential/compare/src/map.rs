//! The program `map`: legs, junctions, boxes and fixes of its picture, counted and placed by what
//! the Rust reads of the same pack and drive.
use crate::Scale;
use crate::drive;
use crate::engine::packs;
use crate::profile::{ROOT, ran, table};
use crate::random::Random;
use crate::tally::Tally;
use oracle::pack::{Header, TileKey};
use oracle::tile::{Tile, flag};
use oracle_angles::engine::Fix;
use std::fs;

/// The page in hundredths of a millimetre: where the grid begins, and the most that it takes.
const LEFT: f64 = 2_000.0;
const TOP: f64 = 2_600.0;
const SIDE: f64 = 17_000.0;
const LAT_UM: f64 = 111_195.0;

/// What a picture has, element by element, in its order.
#[derive(Debug, Default, PartialEq)]
struct Picture {
    /// Of each leg its class, whether it is oneway, and how many points it has.
    legs: Vec<(u8, bool, usize)>,
    nodes: usize,
    tiles: usize,
    missing: usize,
    damaged: usize,
    /// Of each fix what it was matched to.
    fixes: Vec<String>,
    matched: usize,
}

/// A pack's file as the Rust reads it: every place of the grid, row by row.
fn places(pack: &[u8], header: &Header) -> Vec<(TileKey, Result<Option<Vec<u8>>, ()>)> {
    let u32_at = |at: usize| {
        let four = pack.get(at..at + 4).map(|four| four.try_into().expect("4 bytes"));
        four.map(u32::from_le_bytes)
    };
    let tile = |key: TileKey| {
        let at = header.entry(key) as usize;
        let (Some(offset), Some(len)) = (u32_at(at), u32_at(at + 4)) else { return Err(()) };
        if len == 0 {
            return Ok(None);
        }
        let (from, len) = (offset as usize, len as usize);
        let inside = offset >= header.data && from + len <= header.total as usize;
        let bytes = pack.get(from..from + len).filter(|_| inside && len <= 49_152).ok_or(())?;
        Tile::parse(bytes, key, header.tile).map_err(|_| ())?;
        Ok(Some(bytes.to_vec()))
    };
    let keys = (0..header.rows).flat_map(|row| (0..header.cols).map(move |col| TileKey { row, col }));
    keys.map(|key| (key, tile(key))).collect()
}

/// The scale and the lower edge of the map.
struct Frame {
    lon_um: f64,
    unit: f64,
    bottom: f64,
}

impl Frame {
    fn of(h: &Header) -> Self {
        let (rows, cols) = (f64::from(h.rows), f64::from(h.cols));
        let middle = f64::from(h.south) + f64::from(h.tile) * rows / 2.0;
        let lon_um = LAT_UM * (middle * 1e-6).to_radians().cos();
        let (wide, high) = (cols * f64::from(h.tile) * lon_um, rows * f64::from(h.tile) * LAT_UM);
        let unit = wide.max(high) / SIDE;
        Self { lon_um, unit, bottom: TOP + high / unit }
    }

    fn spot(&self, east: f64, north: f64) -> (f64, f64) {
        (LEFT + east * self.lon_um / self.unit, self.bottom - north * LAT_UM / self.unit)
    }
}

fn own(pack: &[u8], text: &str) -> (Picture, Vec<Vec<(f64, f64)>>) {
    let header = Header::parse(pack[..512].try_into().expect("a sector")).expect("a header");
    let frame = Frame::of(&header);
    let (mut picture, mut lines) = (Picture::default(), Vec::new());
    for (key, tile) in places(pack, &header) {
        let bytes = match tile {
            Err(()) => {
                picture.damaged += 1;
                continue;
            }
            Ok(None) => {
                picture.missing += 1;
                continue;
            }
            Ok(Some(bytes)) => bytes,
        };
        picture.tiles += 1;
        let tile = Tile::parse(&bytes, key, header.tile).expect("a tile");
        picture.nodes += tile.node_count();
        let size = f64::from(header.tile);
        let corner = (f64::from(key.col) * size, f64::from(key.row) * size);
        for edge in (0..tile.edge_count()).map(|n| tile.edge(n as u16)) {
            let points = (0..usize::from(edge.vertices) + 2).map(|n| tile.point(&edge, n));
            let spot = |n: oracle::tile::Node| {
                frame.spot(corner.0 + f64::from(n.x), corner.1 + f64::from(n.y))
            };
            let line: Vec<_> = points.map(spot).collect();
            picture.legs.push((edge.class, edge.has(flag::ONEWAY), line.len()));
            lines.push(line);
        }
    }
    let matches = drive::matches(pack, text);
    picture.matched = matches.iter().filter(|found| found.is_some()).count();
    for (n, (line, found)) in text.lines().zip(matches).enumerate() {
        let fix: Fix = drive::fix(line).expect("a fix");
        if header.key(fix.lat, fix.lon).is_some() {
            let road = |(row, col, edge)| format!("row {row}, column {col}, edge {edge}");
            picture.fixes.push(format!("fix {}: {}", n + 1, found.map_or("no road".into(), road)));
        }
    }
    (picture, lines)
}

/// What stands behind a word of a line, up to another.
fn between<'t>(line: &'t str, from: &str, to: &str) -> Option<&'t str> {
    let rest = line.split_once(from)?.1;
    Some(rest.split_once(to)?.0)
}

fn read(svg: &str) -> Option<(Picture, Vec<Vec<(f64, f64)>>)> {
    let (mut picture, mut lines) = (Picture::default(), Vec::new());
    for line in svg.lines() {
        if let Some(class) = between(line, "<polyline class=\"leg c", "\"") {
            let points = between(line, "points=\"", "\"")?.split_whitespace();
            let spot = |word: &str| {
                let (x, y) = word.split_once(',')?;
                Some((x.parse().ok()?, y.parse().ok()?))
            };
            let points: Vec<(f64, f64)> = points.map(spot).collect::<Option<_>>()?;
            let (class, way) = class.split_once(' ').unwrap_or((class, ""));
            picture.legs.push((class.parse().ok()?, way == "oneway", points.len()));
            lines.push(points);
        }
        let is = |word: &str| usize::from(line.starts_with(word));
        picture.nodes += is("<circle class=\"node\"");
        picture.tiles += is("<polygon class=\"box tile\"");
        picture.missing += is("<polygon class=\"box missing\"");
        picture.damaged += is("<polygon class=\"damaged\"");
        picture.matched += is("<polyline class=\"matched\"");
        picture.fixes.extend(between(line, "<title>", "</title>").map(Into::into));
    }
    Some((picture, lines))
}

/// How far a point lies from where it should, in units of the page.
fn apart(port: &[Vec<(f64, f64)>], own: &[Vec<(f64, f64)>]) -> f64 {
    let pairs = port.iter().flatten().zip(own.iter().flatten());
    // What lies above the page is held at its edge.
    let far = pairs.map(|(a, b)| (a.0 - b.0).abs().max((a.1 - b.1.max(0.0)).abs()));
    far.fold(0.0, f64::max)
}

/// One pack and drive in files; the picture has to be whole, and where it should.
fn one(tally: &mut Tally, pack: &[u8], text: &str) {
    let name = |what: &str| format!("{ROOT}/differential/target/map.{what}");
    let words = [name("pack"), name("drive")];
    fs::write(&words[0], pack).expect("the pack can be written");
    fs::write(&words[1], text).expect("the drive can be written");
    let made = ran("map", &[&words[0], &words[1]], &[]);
    let svg = String::from_utf8(made.stdout).expect("a text");
    let is_whole = svg.starts_with("<svg ") && svg.ends_with("</svg>\n") && made.stderr.is_empty();
    tally.count(is_whole, text, svg.len(), String::from_utf8_lossy(&made.stderr));
    let ((own, lines), read) = (own(pack, text), read(&svg));
    let Some((port, drawn)) = read else {
        return tally.count(false, text, "a picture that can't be read", ());
    };
    let far = apart(&drawn, &lines);
    tally.count(far <= 4.0, ("units of the page from its place", text), far, 4.0);
    tally.count(port == own, text, port, own);
}

/// The profile of the sample as the table of `drive` has it: metres ahead and rise.
fn ticks(tally: &mut Tally, svg: &str, samples: &[i16]) {
    let rows: Vec<String> = table(samples).lines().skip(1).map(Into::into).collect();
    let step = samples.len() / 9 + 1;
    let own: Vec<&String> = rows.iter().step_by(step).collect();
    let tick = |line: &str| {
        let ahead = between(line, "y=\"25650\">", "<")?;
        Some(format!("{ahead} {}", between(line, "y=\"26050\">", "<")?))
    };
    let port: Vec<String> = svg.lines().filter_map(tick).filter(|row| !row.contains('h')).collect();
    tally.count(port.iter().eq(own.iter().copied()), "ticks", &port, &own);
}

pub fn compare(scale: &Scale) -> Vec<Tally> {
    let mut tally = Tally::new("map");
    let stored = |name: &str| fs::read(format!("{ROOT}/crates/map/{name}")).expect("a stored file");
    let text = |name: &str| String::from_utf8(stored(name)).expect("a text");
    let (pack, line) = (stored("data/pack"), text("data/drive"));
    one(&mut tally, &pack, &line);
    ticks(&mut tally, &text("stdout"), &drive::samples(&pack, &line));
    let mut random = Random(7);
    for _ in 0..scale.written / 8 {
        let (pack, line) = drive::any(&mut random);
        if Header::parse(pack[..512].try_into().expect("a sector")).is_ok() && !line.is_empty() {
            let spoilt = packs::bad_entries(&packs::spoilt(&pack, &mut random), 5, &mut random);
            one(&mut tally, &pack, &line);
            one(&mut tally, &spoilt, &line);
        }
    }
    vec![tally]
}
