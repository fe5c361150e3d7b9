//! Scripts on the engine for the list that is replayed without Rust: some rows of the table of
//! refusals, and trips on small networks.
use super::script::*;
use super::sled::Sled;
use super::{Case, packs, refusals, trips};
use crate::random::Random;
use crate::tally::Tally;
use oracle_angles::cache::PAGE_BYTES;

/// Records of a trip.
const MOST: usize = 200;
/// Bytes of a network's pack, and of those of a case together.
const SMALL: usize = 5_000;
const TOGETHER: usize = 20_000;
/// Networks, and trips on each.
const NETWORKS: usize = 2;
const TRIPS: usize = 6;

/// One row in 23, so that each stage is met with other enders.
fn rows() -> Vec<Case> {
    let rows = refusals::rows().into_iter().enumerate();
    rows.filter(|(n, _)| n % 23 == 0).map(|(_, (_, case))| case).collect()
}

/// Trips on a network, over caches of a few pages.
fn trips_of(sled: &Sled, packs: &[Vec<u8>], random: &mut Random) -> Vec<Case> {
    let mut trip = |n| {
        let arena = vec![7; [1, 2, 4, 14][n % 4] * PAGE_BYTES];
        trips::case(sled, packs.to_vec(), arena, MOST / 2, random.next())
    };
    (0..2 * TRIPS).map(&mut trip).filter(|case| case.script.len() <= MOST).take(TRIPS).collect()
}

/// A small network of whose trips a good part publishes roads.
fn trips_on(random: &mut Random) -> Vec<Case> {
    loop {
        let network = packs::network(random);
        let packs = packs::of(&network, random);
        let bytes: usize = packs.iter().map(Vec::len).sum();
        if network.pack.bytes.len() > SMALL || bytes > TOGETHER {
            continue;
        }
        let cases = trips_of(&Sled::new(&network), &packs, random);
        let roads = |case: &&Case| case.answers.iter().any(|answer| answer.head[LEN] > 2);
        if cases.len() == TRIPS && cases.iter().filter(roads).count() > TRIPS / 2 {
            return cases;
        }
    }
}

/// Counts and records them.
pub fn count() -> Vec<Tally> {
    let random = &mut Random(31);
    let (mut tally, mut other) = (Tally::new("refusals"), Tally::new("trips"));
    rows().iter().for_each(|case| case.count(&mut tally, "list"));
    for _ in 0..NETWORKS {
        trips_on(random).iter().for_each(|case| case.count(&mut other, "list"));
    }
    for number in [8, 9, 11, 12] {
        assert!(tally.ended(told([REFUSED, number, 0, 0])), "no refusal {number}");
    }
    for how in [IDLE, WORKING, NO_PACK, OFF_MAP, FETCH, IS_SET] {
        assert!(other.ended(told([how, 0, 0, 0])), "no ending {how}");
    }
    vec![tally, other]
}
