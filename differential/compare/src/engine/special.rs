//! Scripts for what trips seldom meet: a wrapped ring of missing tiles, limits of reloads, eight
//! failures, headings that age, roads over all pages, counts and times at the ends of their range.
use super::script::*;
use super::sled::Sled;
use super::trips::{Host, aged};
use super::{Case, Writer, packs};
use crate::matching::roads::{Fate, Grid, Network, Place, Road};
use crate::random::{Random, pick};
use crate::road::networks::{highway, plain};
use crate::tally::Tally;
use oracle_angles::cache::PAGE_BYTES;

const SOUTH: i32 = 47_000_000;
const WEST: i32 = 8_000_000;

fn grid(size: u32, rows: u16, cols: u16) -> Grid {
    Grid { size, rows, cols, south: SOUTH, west: WEST, lon_um: 75_834 }
}

fn straight(from: Place, to: Place, class: u8) -> Road {
    Road { places: vec![from, to], class, flags: 0, group: u16::from(class) }
}

fn ride(writer: &mut Writer, random: &mut Random, sled: &Sled, places: &[Place], every: u64) {
    let mut host = Host::calm(1_000);
    for &place in places {
        host.now += every;
        host.ride(writer, random, sled.point(place));
    }
}

/// Over a hundred tiles of which most are empty, there and back.
fn ring(random: &mut Random) -> Case {
    let grid = grid(pick(&[700, 1_500], random), 10, 10);
    let size = i64::from(grid.size);
    let roads: Vec<Road> = (0..10)
        .map(|n| straight((0, n * size + 350, 3_000), (10 * size, n * size + 350, 3_050), 4))
        .collect();
    let kept = random.below(100);
    let fate = |key: oracle::pack::TileKey| {
        let there = u64::from(key.row) * 10 + u64::from(key.col);
        if (there + kept) % 9 == 0 { Fate::There } else { Fate::Left }
    };
    let network = Network::new(grid, roads, fate);
    let sled = Sled::new(&network);
    let arena = vec![random.next() as u8; (1 + random.below(3) as usize) * PAGE_BYTES];
    Case::new(vec![network.pack.bytes.clone()], arena, |writer| {
        writer.settle(9);
        let cells = (0..100).map(|n| (n / 10, if n / 10 % 2 == 0 { n % 10 } else { 9 - n % 10 }));
        let middle = |n: i64| n * size + size / 2;
        let places: Vec<Place> = cells.map(|(row, col)| (middle(col), middle(row), 0)).collect();
        ride(writer, random, &sled, &places, 1_000);
        for key in [0, 1, 5 << 16 | 5, 9 << 16 | 9, 9 << 16] {
            writer.put(GET, &[key]);
            writer.put(LOAD_FROM, &[key]);
        }
        ride(writer, random, &sled, &places[..20], 1_000);
    })
}

/// Four tiles that meet, with roads in each, and pages for fewer.
fn match_limit(random: &mut Random) -> Case {
    let grid = grid(3_000, 2, 2);
    let roads = vec![
        straight((500, 2_900, 3_000), (5_500, 2_900, 3_100), 3),
        straight((2_900, 500, 3_000), (2_900, 5_500, 3_200), 4),
        straight((3_050, 3_050, 3_000), (5_500, 5_500, 3_200), 5),
    ];
    let network = plain(grid, roads);
    let sled = Sled::new(&network);
    let pages = pick(&[1, 1, 2, 3], random);
    Case::new(vec![network.pack.bytes.clone()], vec![3; pages * PAGE_BYTES], |writer| {
        // On a road and away from the corner first, or not.
        if random.below(2) == 0 {
            ride(writer, random, &sled, &[(1_500, 2_000, 0), (1_500, 2_400, 0)], 1_000);
        }
        let corner = [(2_950, 2_950, 0), (3_010, 3_020, 0), (2_999, 3_100, 0)];
        ride(writer, random, &sled, &corner, 1_000);
        ride(writer, random, &sled, &[(-50, 2_900, 0), (2_000, 2_900, 0)], 1_000);
    })
}

/// A road over many tiles, and pages for one or a few.
fn road_limit(random: &mut Random) -> Case {
    let network = highway(grid(20_000, 1, 6), 300.0, pick(&[0, 3], random), random);
    let sled = Sled::new(&network);
    let pages = pick(&[1, 1, 2, 3, 5, 14], random);
    Case::new(vec![network.pack.bytes.clone()], vec![3; pages * PAGE_BYTES], |writer| {
        let from = 5_000 + random.below(5_000) as i64;
        let places: Vec<Place> = (0..6).map(|n| (from + 250 * n, 10_000, 0)).collect();
        let every = pick(&[600, 1_000, 2_500], random);
        ride(writer, random, &sled, &places, every);
    })
}

/// Eight misses of the header, or of loads; seven, and then one that is read.
fn failures(random: &mut Random) -> Case {
    let network = plain(grid(3_000, 1, 2), vec![straight((0, 90, 3_000), (6_000, 90, 3_100), 3)]);
    let (point, own) = ((SOUTH + 90, WEST + 1_000), network.pack.bytes.clone());
    let bad = packs::bad_entries(&own, 1, random);
    Case::new(vec![own, bad], vec![1; 2 * PAGE_BYTES], |writer| {
        for _ in 0..4 {
            let (of_header, of_load) = (random.below(9), random.below(10));
            let pack = random.below(3) / 2;
            writer.put(RESET, &[pack as u32]);
            (0..of_header).for_each(|_| {
                writer.advance(MISSED);
            });
            writer.advance(BYTES);
            writer.fix((point.0, point.1 + random.within(50)), random.below(9_000));
            writer.advance(BYTES);
            for _ in 0..of_load {
                if random.below(3) == 0 {
                    writer.put(STEP, &[]);
                    writer.put(DELIVER, &[BYTES]);
                }
                writer.advance(pick(&[MISSED, MISSED, PAST], random));
            }
            writer.settle(20);
        }
    })
}

/// A heading, then fixes close together for longer than it lasts; then on.
fn ageing(random: &mut Random) -> Case {
    let network = plain(grid(20_000, 1, 1), vec![straight((0, 90, 3_000), (20_000, 90, 3_100), 3)]);
    let sled = Sled::new(&network);
    // With 10 and 12 seconds one fix comes just when the heading is as old as it may be.
    let every = pick(&[5_000, 9_000, 10_000, 12_000], random);
    let start = pick(&[0, 10_000, (1 << 32) - 40_000, u64::MAX - 100_000], random);
    Case::new(vec![network.pack.bytes.clone()], vec![0; 2 * PAGE_BYTES], |writer| {
        let mut host = Host::calm(start);
        for n in 0..44 {
            let x = match n {
                0..8 => 1_000 + 120 * n,
                8..36 => 1_900 + n % 2 + 2 * (n % 5),
                _ => 2_000 + 300 * (n - 36),
            };
            host.now = host.now.wrapping_add(if n < 8 { 1_000 } else { every });
            host.ride(writer, random, sled.point((x, 95, 0)));
        }
    })
}

/// A road over more than a hundred small tiles, with all pages that a cache may have.
fn all_pages(random: &mut Random) -> Case {
    let (size, cols) = pick(&[(700, 100), (1_500, 97)], random);
    let network = highway(grid(size, 1, cols), 60.0, 0, random);
    let sled = Sled::new(&network);
    let pages = pick(&[96, 97, 60], random);
    Case::new(vec![network.pack.bytes.clone()], vec![3; pages * PAGE_BYTES], |writer| {
        let (mut host, half) = (Host::calm(1_000), i64::from(size) / 2);
        for n in 0..4 {
            host.now += 1_000;
            writer.fix(sled.point((1_500 + 250 * n, half, 0)), host.now);
            for _ in 0..400 {
                if writer.put(STEP_FROM, &[])[0] != WORKING {
                    break;
                }
            }
        }
    })
}

/// There and back over more tiles than there are pages, while the clock passes 2^32: which run a new
/// tile replaces goes by ages on both sides of it.
fn long_run(random: &mut Random) -> Case {
    let network = highway(grid(1_500, 1, 40), 70.0, pick(&[0, 6], random), random);
    let sled = Sled::new(&network);
    let pages = pick(&[1, 2, 3, 5, 8, 13, 14, 20], random);
    Case::new(vec![network.pack.bytes.clone()], vec![3; pages * PAGE_BYTES], |writer| {
        let (from, every) = (random.below(20_000) as i64, pick(&[600, 1_000, 2_500], random));
        let place = |n: i64| (from + 1_400 * (8 - (n - 8).abs()), 750, 0);
        for part in 0..2 {
            // Before the first load, and once runs have ages.
            aged(writer, random);
            let places: Vec<Place> = (8 * part..8 * part + 9).map(place).collect();
            ride(writer, random, &sled, &places, every);
        }
        // By calls on the cache alone, since a road uses every tile that it meets.
        for n in 0..60 {
            if n % 20 == 0 {
                aged(writer, random);
            }
            let key = random.below(40) as u32;
            let (kind, times) = pick(&[(GET, 1), (LOAD_FROM, 3)], random);
            (0..times).for_each(|_| {
                writer.put(kind, &[key]);
            });
        }
    })
}

/// A ride over small tiles with so many pages.
fn of_pages(pages: u64, random: &mut Random) -> Case {
    let network = highway(grid(1_500, 1, 40), 70.0, pick(&[0, 6], random), random);
    let sled = Sled::new(&network);
    let arena = vec![3; pages as usize * PAGE_BYTES + random.below(3) as usize];
    Case::new(vec![network.pack.bytes.clone()], arena, |writer| {
        let (mut host, from) = (Host::calm(1_000), random.below(30_000) as i64);
        for n in 0..3 {
            host.now += 1_000;
            writer.fix(sled.point((from + 300 * n, 750, 0)), host.now);
            for _ in 0..14 {
                if writer.put(STEP_FROM, &[])[0] != WORKING {
                    break;
                }
            }
        }
    })
}

/// Every count of pages that a cache may have, and one more.
pub fn page_counts(tally: &mut Tally, random: &mut Random, n: u64) {
    of_pages(n % 98, random).count(tally, "page count");
}

/// On a road, off the map, back; off a road for as long as a match is held, and back; lost.
fn off_and_on(random: &mut Random) -> Case {
    let roads = vec![
        straight((500, 3_000, 3_000), (5_500, 3_000, 3_100), 3),
        straight((5_500, 3_000, 3_100), (5_500, 5_900, 3_300), 4),
    ];
    let network = plain(grid(6_000, 1, 1), roads);
    let sled = Sled::new(&network);
    Case::new(vec![network.pack.bytes.clone()], vec![9; 2 * PAGE_BYTES], |writer| {
        let along = |n: i64| (1_000 + 200 * n, 3_000, 0);
        let off = |n: i64| (2_000 + 60 * n, 1_500, 0);
        let on: Vec<Place> = (0..5).map(along).collect();
        let away: Vec<Place> = (0..5).map(off).collect();
        for _ in 0..4 {
            let every = pick(&[300, 700, 1_000, 2_000], random);
            let turn = [(5_480, 3_010, 0), (5_500, 3_200, 0), (5_500, 3_600, 0)];
            let out = [(-10, 3_000, 0), (-20, 3_000, 0), (900, 3_000, 0)];
            for places in [&on[..], &away, &on, &out, &on, &turn, &on] {
                ride(writer, random, &sled, places, every);
                // A fix while a road is due, so that the match may be gone by then.
                if random.below(2) == 0 {
                    writer.fix(sled.point(along(7)), 0);
                    writer.advance(BYTES);
                    (0..3).for_each(|n| {
                        writer.fix(sled.point(off(n)), 1 + n as u64);
                        writer.advance(BYTES);
                    });
                    writer.settle(9);
                }
            }
            writer.put(pick(&[LOST, RESET], random), &[0]);
            writer.settle(20);
        }
    })
}

/// The packs that can't be read, one after the other.
fn unreadable(random: &mut Random) -> Case {
    let network = plain(grid(3_000, 1, 2), vec![straight((0, 90, 3_000), (6_000, 90, 3_100), 3)]);
    let own = network.pack.bytes.clone();
    let bad: Vec<_> = (0..12).map(|_| packs::unreadable(&own, random)).collect();
    let packs: Vec<Vec<u8>> = [own].into_iter().chain(bad).collect();
    Case::new(packs, vec![1; 2 * PAGE_BYTES], |writer| {
        for pack in (0..13).chain([0]) {
            writer.put(RESET, &[pack]);
            writer.fix((SOUTH + 90, WEST + 1_000 + pack as i32), 1_000);
            writer.put(pick(&[STEP_FROM, STEP], random), &[]);
            writer.settle(30);
            (0..2).for_each(|_| {
                writer.put(STEP, &[]);
            });
        }
    })
}

/// A kind of case, and its name.
type Kind = (&'static str, fn(&mut Random) -> Case);

const KINDS: [Kind; 9] = [
    ("ring", ring),
    ("match limit", match_limit),
    ("road limit", road_limit),
    ("failures", failures),
    ("ageing", ageing),
    ("all pages", all_pages),
    ("long run", long_run),
    ("off and on", off_and_on),
    ("unreadable", unreadable),
];

pub fn compare(tally: &mut Tally, random: &mut Random, n: u64) {
    let (name, case) = KINDS[(n % KINDS.len() as u64) as usize];
    case(random).count(tally, name);
}
