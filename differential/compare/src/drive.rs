//! The program `drive`: what it has to print, from the Rust whose angles are the port's, and the
//! sample pack and drive that it ships with.
use crate::engine::packs;
use crate::engine::sled::{self, Sled};
use crate::matching::roads::{Grid, Place, Road};
use crate::packs::seal_sector;
use crate::profile;
use crate::random::Random;
use crate::road::networks;
use crate::tally::Tally;
use oracle_angles::cache::PAGE_BYTES;
use oracle_angles::engine::{Ahead, Fix, Lookahead, Status};
use oracle_angles::matcher::Matched;
use oracle_angles::pack::{Error, Source};
use oracle_angles::predict::End;
use std::fs;

/// As the program has them.
const PAGES: usize = 24;
const STEPS: usize = 65_536;
const HORIZON: f32 = 10_000.0;
const HEADING: &str = "fix status row col edge way offset samples end confidence\n";

/// Where the program's sample is stored.
const STORED: &str = concat!(env!("CARGO_MANIFEST_DIR"), "/../../crates/drive");

// What is printed.

fn status_name(status: Status) -> &'static str {
    match status {
        Status::Idle => "idle",
        Status::Working => "working",
        Status::NoPack => "no-pack",
        Status::OffMap => "off-map",
    }
}

fn end_name(end: End) -> &'static str {
    match end {
        End::Horizon => "horizon",
        End::Fork => "fork",
        End::DeadEnd => "dead-end",
        End::MapEdge => "map-edge",
        End::Uncertain => "uncertain",
        End::Memory => "memory",
    }
}

fn place(m: &Matched) -> String {
    let way = m.forward.map_or("-", |forward| if forward { "forward" } else { "back" });
    let offset = ((m.offset_m * 10.0) as u32).min(65_535);
    let (row, col) = (m.tile.key.row, m.tile.key.col);
    format!("{row} {col} {} {way} {}.{}", m.edge, offset / 10, offset % 10)
}

fn line(number: usize, status: Status, a: &Ahead) -> String {
    let matched = a.matched.as_ref().map_or("- - - - -".into(), place);
    let (status, end) = (status_name(status), end_name(a.end));
    format!("{number} {status} {matched} {} {end} {}\n", a.len, a.confidence)
}

pub fn fix(line: &str) -> Option<Fix> {
    let words: Vec<&str> = line.split(' ').collect();
    let [lat, lon, at] = words[..] else {
        return None;
    };
    Some(Fix::from_e7(lat.parse().ok()?, lon.parse().ok()?, at.parse().ok()?))
}

/// A pack whose reads are missed by number: each multiple of `every`, none with 0.
struct Card<'p> {
    pack: &'p [u8],
    every: u64,
    reads: u64,
}

impl Source for Card<'_> {
    fn read(&mut self, offset: u64, buf: &mut [u8]) -> Result<(), Error> {
        self.reads += 1;
        if self.every > 0 && self.reads % self.every == 0 {
            return Err(Error::Media);
        }
        self.pack.read(offset, buf)
    }
}

fn text(pack: &[u8], drive: &str, every: u64) -> String {
    if drive.is_empty() {
        return "drive: the drive has no fixes\n".into();
    }
    let mut arena = vec![0; PAGES * PAGE_BYTES];
    let mut engine = Lookahead::new(&mut arena, HORIZON);
    let (mut card, mut out) = (Card { pack, every, reads: 0 }, String::from(HEADING));
    for (n, words) in drive.lines().enumerate() {
        let Some(fix) = fix(words) else {
            return out + &format!("drive: line {} is not latitude, longitude and time\n", n + 1);
        };
        engine.fix(fix);
        let mut steps = (0..STEPS).map(|_| engine.step(&mut card));
        let status = steps.find(|&status| status != Status::Working);
        out += &line(n + 1, status.unwrap_or(Status::Working), engine.ahead());
        if status == Some(Status::NoPack) {
            return out + "drive: the pack is refused, or eight reads of it failed\n";
        }
    }
    let a = engine.ahead();
    out + &profile::table(&a.samples[..a.len])
}

/// What each fix is matched to, as of the road that is published then, and the last road's heights.
fn ridden(pack: &[u8], drive: &str) -> (Vec<Option<(u16, u16, u16)>>, Vec<i16>) {
    let mut arena = vec![0; PAGES * PAGE_BYTES];
    let mut engine = Lookahead::new(&mut arena, HORIZON);
    let (mut card, mut all) = (Card { pack, every: 0, reads: 0 }, Vec::new());
    for line in drive.lines() {
        engine.fix(fix(line).expect("a fix"));
        (0..STEPS).map(|_| engine.step(&mut card)).find(|&status| status != Status::Working);
        let matched = engine.ahead().matched.as_ref();
        all.push(matched.map(|m| (m.tile.key.row, m.tile.key.col, m.edge)));
    }
    let a = engine.ahead();
    (all, a.samples[..a.len].to_vec())
}

pub fn matches(pack: &[u8], drive: &str) -> Vec<Option<(u16, u16, u16)>> {
    ridden(pack, drive).0
}

pub fn samples(pack: &[u8], drive: &str) -> Vec<i16> {
    ridden(pack, drive).1
}

/// Prints what the program prints for these files.
pub fn print(pack: &str, drive: &str, every: &str) -> Vec<Tally> {
    let pack = fs::read(pack).expect("the pack can be read");
    let drive = fs::read_to_string(drive).expect("the drive can be read");
    print!("{}", text(&pack, &drive, every.parse().expect("a number")));
    Vec::new()
}

// The sample.

/// Three rows and four columns of tiles some 1,112 m high and 416 m wide, at 68 degrees north.
const GRID: Grid =
    Grid { size: 10_000, rows: 3, cols: 4, south: 68_350_000, west: 18_820_000, lon_um: 41_023 };

/// Metres east and north of the corner and decimetres above the sea.
type Spot = (f64, f64, u16);

/// A road up a valley to a junction, on past it to a fork, a side road to a village, and the fork's
/// two ways.
const VALLEY: [Spot; 7] = [
    (60.0, 100.0, 3_410),
    (150.0, 300.0, 3_460),
    (260.0, 520.0, 3_580),
    (330.0, 760.0, 3_700),
    (430.0, 980.0, 3_910),
    (520.0, 1_180.0, 4_030),
    (600.0, 1_400.0, 4_240),
];
const UPPER: [Spot; 5] = [
    (600.0, 1_400.0, 4_240),
    (690.0, 1_620.0, 4_410),
    (760.0, 1_850.0, 4_370),
    (840.0, 2_100.0, 4_620),
    (870.0, 2_300.0, 4_790),
];
const SIDE: [Spot; 3] = [(600.0, 1_400.0, 4_240), (760.0, 1_380.0, 4_290), (900.0, 1_330.0, 4_200)];
const LEFT: [Spot; 2] = [(870.0, 2_300.0, 4_790), (820.0, 2_480.0, 4_880)];
const RIGHT: [Spot; 2] = [(870.0, 2_300.0, 4_790), (960.0, 2_470.0, 4_850)];

/// Metres from fix to fix, and how far each lies east of the road.
const APART: f64 = 112.0;
const ASIDE: [f64; 12] = [2.0, -3.5, 5.0, 1.0, -6.0, 4.5, -1.0, 8.5, -2.5, 3.0, -4.0, 1.5];
/// Metres along the road of the first fix.
const FIRST: f64 = 620.0;

fn spot((east, north, dm): Spot) -> Place {
    GRID.beside((0, 0, dm + 5_000), east, north)
}

/// The line with a place every ten metres or so, some a little aside and a little higher.
fn winding(spots: &[Spot]) -> Vec<Place> {
    let mut places = vec![spot(spots[0])];
    for pair in spots.windows(2) {
        let [(x, y, z), (to_x, to_y, to_z)] = [pair[0], pair[1]];
        let (east, north) = (to_x - x, to_y - y);
        let pieces = ((east * east + north * north).sqrt() / 10.0) as usize;
        for n in 1..pieces {
            let t = n as f64 / pieces as f64;
            let (aside, higher) = [(0.6, 2), (1.2, 3), (0.5, 1), (-0.7, 0)][n % 4];
            let dm = (f64::from(z) + (f64::from(to_z) - f64::from(z)) * t) as u16 + higher;
            places.push(spot((x + east * t + aside, y + north * t, dm)));
        }
        places.push(spot(pair[1]));
    }
    places
}

fn road(spots: &[Spot], class: u8, group: u16) -> Road {
    Road { places: winding(spots), class, flags: 0, group }
}

/// The village: streets as a net, 45 m apart, from the side road's end on.
fn streets() -> Vec<Road> {
    let at = |n: u16, m: u16| {
        let (east, north, dm) = SIDE[2];
        (east + 45.0 * f64::from(n), north + 45.0 * f64::from(m), dm + 4 * n + 7 * m)
    };
    let crossings = (0..7).flat_map(|n| (0..7).map(move |m| (n, m)));
    let two = |(n, m)| {
        let east = road(&[at(n, m), at(n + 1, m)], 8, 10 + m);
        [east, road(&[at(n, m), at(n, m + 1)], 8, 20 + n)]
    };
    crossings.flat_map(two).collect()
}

/// The pack with its count of tiles in the sector, as `write_pack` writes it.
fn counted(mut bytes: Vec<u8>) -> Vec<u8> {
    let data = u32::from_le_bytes(bytes[40..44].try_into().expect("4 bytes")) as usize;
    let tiles = bytes[512..data].chunks(8).filter(|entry| entry[4..] != [0; 4]).count() as u32;
    bytes[48..52].copy_from_slice(&tiles.to_le_bytes());
    let mut sector = bytes[..512].try_into().expect("512 bytes");
    seal_sector(&mut sector);
    bytes[..512].copy_from_slice(&sector);
    bytes
}

fn sample_pack() -> Vec<u8> {
    let ways = [(&LEFT[..], 6, 3), (&RIGHT[..], 6, 4), (&SIDE[..], 7, 2)];
    let roads = [(&VALLEY[..], 5, 1), (&UPPER[..], 5, 1)].into_iter().chain(ways);
    let roads = roads.map(|(spots, class, group)| road(spots, class, group));
    counted(networks::plain(GRID, roads.chain(streets()).collect()).pack.bytes)
}

/// East and north of a place so many metres along the valley and on.
fn along(mut metres: f64) -> (f64, f64) {
    let line: Vec<Spot> = VALLEY.into_iter().chain(UPPER).collect();
    for pair in line.windows(2) {
        let (east, north) = (pair[1].0 - pair[0].0, pair[1].1 - pair[0].1);
        let len = (east * east + north * north).sqrt();
        if metres <= len && len > 0.0 {
            return (pair[0].0 + east * metres / len, pair[0].1 + north * metres / len);
        }
        metres -= len;
    }
    panic!("the road is long enough")
}

/// A fix every eight seconds, whole metres in ten-millionths of a degree.
fn sample_drive() -> String {
    let fix = |(n, aside): (usize, f64)| {
        let (east, north) = along(FIRST + APART * n as f64);
        let (x, y) = GRID.metres(east + aside, north);
        let lat = 10 * (i64::from(GRID.south) + y) + (3 * n as i64) % 10;
        let lon = 10 * (i64::from(GRID.west) + x) + (7 * n as i64) % 10;
        format!("{lat} {lon} {}\n", 1_000 + 8_000 * n)
    };
    ASIDE.into_iter().enumerate().map(fix).collect()
}

/// Writes the sample's pack and drive.
pub fn write(pack: &str, drive: &str) -> Vec<Tally> {
    fs::write(pack, sample_pack()).expect("the pack can be written");
    fs::write(drive, sample_drive()).expect("the drive can be written");
    Vec::new()
}

/// The pack of any network, and a drive of a sled on it, as far as a receiver can tell it.
pub fn any(random: &mut Random) -> (Vec<u8>, String) {
    let network = packs::network(random);
    let sled = Sled::new(&network);
    let mut at_ms = 0;
    let mut fix = |fix: sled::Fix| {
        at_ms += fix.after;
        let (lat, lon) = sled.point(fix.place);
        let digit = (at_ms % 7) as i32;
        Some(format!("{} {} {at_ms}\n", e7(lat, digit)?, e7(lon, digit)?))
    };
    let lines: String = sled.fixes(random, 40).into_iter().filter_map(&mut fix).collect();
    (network.pack.bytes.clone(), lines)
}

/// Writes such a pack and drive.
pub fn write_any(pack: &str, drive: &str, seed: &str) -> Vec<Tally> {
    let (bytes, lines) = any(&mut Random(seed.parse().expect("a number")));
    fs::write(pack, bytes).expect("the pack can be written");
    fs::write(drive, lines).expect("the drive can be written");
    Vec::new()
}

/// Millionths of a degree with a digit more, if 32 bits can tell it.
fn e7(degrees: i32, digit: i32) -> Option<i32> {
    degrees.checked_mul(10)?.checked_add(if degrees < 0 { -digit } else { digit })
}

/// The stored pack, drive and text against the generator's and the Rust's.
pub fn compare() -> Vec<Tally> {
    let stored = |name: &str| fs::read(format!("{STORED}/{name}")).expect("a stored file");
    let (pack, drive) = (sample_pack(), sample_drive());
    let mut tally = Tally::new("drive, stored sample");
    let printed = text(&pack, &drive, 0).into_bytes();
    for (name, made) in [
        ("../write_pack/stdout", pack.clone()),
        ("data/pack", pack),
        ("data/drive", drive.into_bytes()),
        ("stdout", printed),
    ] {
        tally.count(stored(name) == made, name, stored(name), made);
    }
    vec![tally]
}
