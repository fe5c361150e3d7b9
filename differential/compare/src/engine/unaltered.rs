//! The original whose angles are the port's beside the unaltered one, on the same trips over the
//! whole pack: what the angles alone change of matches and roads, and of headings.
use super::packs::network;
use super::sled::Sled;
use crate::matching::script::figure;
use crate::matching::unaltered::{apart, between};
use crate::random::Random;
use crate::{Scale, tally::Tally};

const ARENA: usize = 24 * 8_192;

/// What is published: the match in words, the road's fields, its heights.
#[derive(PartialEq)]
struct Published {
    matched: Vec<u32>,
    road: Vec<u32>,
    heights: Vec<i16>,
}

macro_rules! published {
    ($engine:expr) => {{
        let a = $engine.ahead();
        let matched = a.matched.map_or(vec![], |m| {
            let direction = m.forward.map_or(0, |forward| 1 + u32::from(forward));
            let id = [m.tile.key.row, m.tile.key.col, m.edge, m.segment].map(u32::from);
            let figures = [m.fraction, m.offset_m, m.ridden_m].map(|x| figure(x + 0.0));
            let rest = [direction, m.z_dm as u32, m.class.into(), m.confidence.into()];
            [&id[..], &figures, &rest].concat()
        });
        let figures = [figure(a.behind_m), figure(a.end_m), a.confidence.into()];
        let counts = [a.len as u32, a.behind_len as u32, a.end as u32, a.start_z_dm as u32];
        let heights = [&a.samples[..a.len], &a.behind[..a.behind_len]].concat();
        Published { matched, road: [&counts[..], &figures].concat(), heights }
    }};
}

/// A fix, and steps to its end; what is published then.
macro_rules! rode {
    ($of:ident, $engine:expr, $pack:expr, $point:expr, $at_ms:expr) => {{
        let (lat, lon) = $point;
        $engine.fix($of::engine::Fix { lat, lon, at_ms: $at_ms });
        for _ in 0..600 {
            if $engine.step(&mut &$pack[..]) != $of::engine::Status::Working {
                break;
            }
        }
        published!($engine)
    }};
}

/// What differs between two roads or matches.
fn kind(rust: &Published, second: &Published) -> &'static str {
    let (a, b) = (&rust.matched, &second.matched);
    match (&rust.road, &second.road) {
        _ if a.is_empty() != b.is_empty() => "match or none",
        _ if !a.is_empty() && a[..3] != b[..3] => "another edge",
        _ if !a.is_empty() && a[7] != b[7] => "another direction",
        _ if a[..a.len().saturating_sub(1)] != b[..b.len().saturating_sub(1)] => "another place",
        (c, d) if c[..6] == d[..6] && rust.heights == second.heights => "confidence alone",
        (c, d) if c[2] != d[2] => "another end",
        _ => "another road",
    }
}

fn trip(tally: &mut Tally, random: &mut Random) {
    let network = network(random);
    network.plains.iter().for_each(|plain| tally.far(apart(plain)));
    let (mut one, mut two) = (vec![0; ARENA], vec![0; ARENA]);
    let mut one = oracle::engine::Lookahead::new(&mut one, 10_000.0);
    let mut two = oracle_angles::engine::Lookahead::new(&mut two, 10_000.0);
    let (sled, pack, mut now) = (Sled::new(&network), &network.pack.bytes, 0);
    for _ in 0..3 {
        for fix in sled.fixes(random, 60) {
            now += fix.after;
            let point = sled.point(fix.place);
            let rust = rode!(oracle, one, pack, point, now);
            let second = rode!(oracle_angles, two, pack, point, now);
            if let (Some(a), Some(b)) = (one.heading(), two.heading()) {
                tally.far([between(a.into(), b.into()), 0.0]);
            }
            tally.count(rust == second, (point, now), &second.road, &rust.road);
            if rust != second {
                tally.end((kind(&rust, &second), 0));
                // So that each is a difference of one fix.
                one.lost();
                two.lost();
            }
        }
    }
}

pub fn compare(scale: &Scale) -> Tally {
    let mut tally =
        Tally::over("engine, angles alone", scale, scale.engines / 2, |tally, random, _| {
            trip(tally, random);
        });
    tally.shown_only = true;
    tally
}
