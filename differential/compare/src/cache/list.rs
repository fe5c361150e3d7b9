//! Scripts on the cache for the list that is replayed without Rust: the table of refusals, orders
//! of reads, random scripts, and more missing tiles than the ring has places.
use super::packs::{self, Pack};
use super::script::*;
use super::{Aim, Case, ORDERED, ordered, refusals};
use crate::random::{Random, pick};
use crate::record;
use crate::tally::Tally;
use oracle_cache::cache::PAGE_BYTES;

/// Endings that the scripts have to have, and their numbers.
const NUMBERS: [(u32, &[u32]); 2] = [(FAILED, &[1, 2, 4]), (REFUSED, &[9, 11, 12])];

fn arena(random: &mut Random, pages: u64) -> Vec<u8> {
    let rest = pick(&[0, 5, PAGE_BYTES - 1], random);
    vec![random.next() as u8; pages as usize * PAGE_BYTES + rest]
}

/// Random scripts over tiles of all sizes.
fn scripts(random: &mut Random, pack: &Pack) -> Vec<Case> {
    let mut case = |n: u64| {
        let pages = [0, 1, 2, 3, 6, 7, 8, 12][n as usize % 8];
        Case::new(pack, arena(random, pages), |writer| {
            let (key, misses) = (pack.key(random), pick(&[5, 20, 1_000], random));
            let mut aim = Aim { pack, key, misses };
            (0..120).for_each(|_| aim.record(writer, random));
        })
    };
    (0..8).map(&mut case).collect()
}

/// More missing tiles than the ring has places.
fn ring(random: &mut Random, pack: &Pack) -> Case {
    Case::new(pack, arena(random, 2), |writer| {
        for n in (0..70).chain(0..10).chain(60..80) {
            writer.put(STEP, &[n / 10 << 16 | n % 10, 0]);
        }
        for key in [0, 8, 70, 5 << 16] {
            writer.put(GET, &[key]);
        }
    })
}

fn counted(name: &str, cases: &[Case]) -> Tally {
    let mut tally = Tally::new(name);
    cases.iter().for_each(|case| case.count(&mut tally, name));
    tally
}

/// The pack of the first scripts.
pub fn first() -> Vec<u8> {
    refusals::pack().bytes
}

/// Packs that the list has room for.
fn small(pack: &Pack) -> bool {
    pack.bytes.len() <= record::PACK
}

/// Counts and records them.
pub fn count() -> Vec<Tally> {
    let random = &mut Random(0);
    let rows: Vec<Case> =
        refusals::rows(&refusals::pack()).into_iter().map(|(_, case)| case).collect();
    let mut tallies = vec![counted("refusals", &rows)];
    let pack = packs::of(&ORDERED);
    let orders: Vec<Case> =
        (0..).map(|n| n * 1_009).take(60).flat_map(|n| ordered(&pack, n)).collect();
    tallies.push(counted("orders of reads", &orders));
    for pack in [packs::every(), packs::largest()] {
        assert!(small(&pack), "{} bytes", pack.bytes.len());
        tallies.push(counted("scripts", &scripts(random, &pack)));
    }
    let pack = (0..).map(|_| packs::sparse(random)).find(small).expect("a small one");
    tallies.push(counted("missing ring", &[ring(random, &pack)]));
    for (how, numbers) in NUMBERS {
        let met = |&number: &u32| tallies.iter().any(|t| t.ended(super::told([how, number, 0, 0])));
        assert!(numbers.iter().all(met), "not every number of {numbers:?}");
    }
    tallies
}
