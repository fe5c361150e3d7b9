//! Scripts of roads for the list that is replayed without Rust: some rows of the table of refusals,
//! and roads of all ends on small networks.
use super::script::*;
use super::start::{self, Summed, Words};
use super::{Case, networks, refusals};
use crate::cache::script::REFUSED;
use crate::matching::roads::Network;
use crate::matching::script::{NEED, NOTHING};
use crate::random::Random;
use crate::tally::Tally;
use oracle_cache::cache::PAGE_BYTES;
use std::collections::BTreeMap;

/// Roads of each end that the list has.
const EACH: usize = 2;
/// Pages whose budget is two, so that roads over three tiles end for memory.
const PAGES: usize = 14;
/// States that are refused at once: enough to show the kinds of them.
const STATES: [&str; 4] = [
    "a count past the slots",
    "a run over the next one",
    "an arena shorter than its pages",
    "a directory that ends early",
];

/// Roads from some starts, with all tiles loaded.
fn roads(network: &Network, starts: &[Words]) -> Case {
    Case::new(&network.pack, vec![7; PAGES * PAGE_BYTES], |writer| {
        for plain in &network.plains {
            writer.matching.settle(Summed::new(plain).key());
        }
        for start in starts {
            start::set(writer, start);
            writer.road(10_000.0, 0x5a5a);
        }
    })
}

/// How many roads of each end are still wanted.
type Wanted = BTreeMap<&'static str, usize>;

/// Starts on a network whose roads are wanted, and what is wanted then. A road that is not cut off
/// for memory has more than two samples.
fn wanted_of(network: &Network, wanted: &Wanted, random: &mut Random) -> (Vec<Words>, Wanted) {
    let (mut left, mut starts) = (wanted.clone(), Vec::new());
    let tiles: Vec<Summed> = network.plains.iter().map(Summed::new).collect();
    for _ in 0..16 {
        let start = tiles[random.below(tiles.len() as u64) as usize].any(random);
        let case = roads(network, &[start]);
        let last = &case.answers[case.answers.len() - 1];
        let (end, short) = (last.told().0, last.head[6] <= 2);
        let many = left.get_mut(end).filter(|many| **many > 0 && last.head[0] == IS_ROAD);
        if let Some(many) = many.filter(|_| end == "Memory" || !short) {
            *many -= 1;
            starts.push(start);
        }
    }
    (starts, left)
}

/// Small networks with roads of all ends; each shows as many that are still wanted as one of the
/// last hundred did.
fn ends_of_roads(random: &mut Random) -> Vec<(Network, Case)> {
    let ends = ["Horizon", "Fork", "DeadEnd", "MapEdge", "Uncertain", "Memory"];
    let mut wanted: Wanted = ends.into_iter().map(|end| (end, EACH)).collect();
    let (mut out, mut at_least, mut tried) = (Vec::new(), 8, 0);
    while wanted.values().any(|&many| many > 0) {
        tried += 1;
        if tried % 100 == 0 {
            at_least -= 1;
        }
        let network = networks::network(random);
        let small = network.pack.bytes.len() < 12_000 && !network.plains.is_empty();
        if !small || network.plains.iter().any(|plain| plain.edges.is_empty()) {
            continue;
        }
        let (starts, left) = wanted_of(&network, &wanted, random);
        if starts.len() >= at_least.max(1) {
            let case = roads(&network, &starts);
            out.push((network, case));
            wanted = left;
        }
    }
    out
}

/// Of the table some states, and of other rows of one name two that don't end alike.
fn rows() -> Vec<Case> {
    let mut met: Vec<(String, Vec<(&str, u32)>)> = Vec::new();
    let mut is_kept = |name: &str, case: &Case| {
        let endings: Vec<_> = case.answers.iter().map(Answer::told).collect();
        let of_name = || met.iter().filter(|(other, _)| other == name);
        let is_new = of_name().count() < 2 && of_name().all(|(_, others)| *others != endings);
        if is_new {
            met.push((name.into(), endings));
        }
        let states = crate::matching::refusals::CACHES.iter();
        let mut states = states.chain(crate::matching::refusals::HEADERS);
        is_new && (STATES.contains(&name) || states.all(|(state, _)| *state != name))
    };
    let rows = refusals::rows().into_iter();
    rows.filter(|(name, case)| is_kept(name, case)).map(|(_, case)| case).collect()
}

/// Counts and records them.
pub fn count() -> Vec<Tally> {
    let (mut tally, mut other) = (Tally::new("refusals"), Tally::new("roads"));
    rows().iter().for_each(|case| case.count(&mut tally, "list"));
    for (_, case) in ends_of_roads(&mut Random(21)) {
        case.count(&mut other, "list");
    }
    for number in [9, 10, 12] {
        assert!(tally.ended(told(&[REFUSED, number, 0, 0])), "no refusal {number}");
    }
    for how in [NOTHING, NEED, REMATCH] {
        assert!(tally.ended(told(&[how, 0, 0, 0])), "no ending {how}");
    }
    vec![tally, other]
}
