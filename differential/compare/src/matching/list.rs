//! Scripts on the matcher for the list that is replayed without Rust: the table of refusals, and
//! rides on small networks.
use super::script::told;
use super::{Case, refusals, ride, roads};
use crate::random::Random;
use crate::tally::Tally;
use oracle_cache::cache::PAGE_BYTES;

/// Rides on small networks: of each as many as show each ending.
fn rides(random: &mut Random, count: usize) -> Vec<(roads::Network, Vec<Case>)> {
    let mut out = Vec::new();
    while out.len() < count {
        let network = roads::network(random);
        if network.roads.is_empty() || network.pack.bytes.len() > 6_000 {
            continue;
        }
        let arena = || vec![7; 6 * PAGE_BYTES];
        let cases = (0..6).map(|_| ride::case(&network, random, arena(), 40)).collect();
        out.push((network, cases));
    }
    out
}

/// Counts and records them.
pub fn count() -> Vec<Tally> {
    let (mut tally, mut other) = (Tally::new("refusals"), Tally::new("rides"));
    refusals::rows().iter().for_each(|(name, case)| case.count(&mut tally, name));
    for (_, cases) in rides(&mut Random(11), 2) {
        cases.iter().for_each(|case| case.count(&mut other, "list"));
    }
    for end in [[13, 0, 0, 0], [14, 0, 0, 0], [15, 0, 0, 0]] {
        assert!(other.ended(told(end)), "no ride ends {:?}", told(end));
    }
    vec![tally, other]
}
