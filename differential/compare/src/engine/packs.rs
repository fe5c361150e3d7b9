//! Packs beside a network's own: changed ones, and those that a header, an entry, a tile or an end
//! makes unreadable.
use crate::matching::roads::Network;
use crate::packs::{RULES, broken, sector, words};
use crate::random::{Random, pick};
use crate::{matching, road};

/// A network of either kind that has roads.
pub fn network(random: &mut Random) -> Network {
    loop {
        let network = match random.below(3) {
            0 => matching::roads::network(random),
            _ => road::networks::network(random),
        };
        if !network.roads.is_empty() && !network.plains.is_empty() {
            return network;
        }
    }
}

fn entries(pack: &[u8]) -> usize {
    let data = u32::from_le_bytes(pack[40..44].try_into().expect("4 bytes"));
    (data as usize - 512) / 8
}

/// One entry in so many outside the data, before it or past its end.
pub fn bad_entries(pack: &[u8], one_in: u64, random: &mut Random) -> Vec<u8> {
    let mut bytes = pack.to_vec();
    let total = u32::from_le_bytes(pack[44..48].try_into().expect("4 bytes"));
    for n in 0..entries(pack) {
        if random.below(one_in) == 0 {
            let (at, len) = pick(&[(511, 100), (total, 1), (total - 1, 2), (0, 8)], random);
            let entry = [at, len].map(u32::to_le_bytes).concat();
            bytes[512 + 8 * n..][..8].copy_from_slice(&entry);
        }
    }
    bytes
}

/// A few bits of tiles changed, so that some are corrupt.
pub fn spoilt(pack: &[u8], random: &mut Random) -> Vec<u8> {
    let mut bytes = pack.to_vec();
    let data = 512 + 8 * entries(pack);
    for _ in 0..1 + random.below(4) {
        let room = (bytes.len() - data).max(1) as u64;
        if let Some(byte) = bytes.get_mut(data + random.below(room) as usize) {
            *byte ^= 1 << random.below(8);
        }
    }
    bytes
}

/// Cut anywhere, most often in its data.
pub fn cut(pack: &[u8], random: &mut Random) -> Vec<u8> {
    let (end, data) = (pack.len() as u64, 512 + 8 * entries(pack) as u64);
    let inside = data + random.below(end - data + 1);
    let at = pick(&[inside, inside, inside, end - 1, data, random.below(end), 512, 511], random);
    pack[..(at as usize).min(pack.len())].to_vec()
}

/// The header's sum is wrong, or it breaks a rule, or there is none.
pub fn unreadable(pack: &[u8], random: &mut Random) -> Vec<u8> {
    let mut bytes = pack.to_vec();
    match random.below(4) {
        0 => bytes[random.below(512) as usize] ^= 1 << random.below(8),
        1 | 2 => {
            let rule = random.below(RULES);
            bytes[..512].copy_from_slice(&sector(&words(&broken(random, rule))));
        }
        _ => bytes.truncate(random.below(512) as usize),
    }
    bytes
}

/// The network's pack, a changed one, one that is damaged, and one that can't be read.
pub fn of(network: &Network, random: &mut Random) -> Vec<Vec<u8>> {
    let own = &network.pack.bytes;
    let other = if random.below(2) == 0 { self::network(random).pack.bytes } else { own.clone() };
    let damaged = match random.below(3) {
        0 => bad_entries(own, pick(&[1, 2, 4], random), random),
        1 => spoilt(own, random),
        _ => cut(own, random),
    };
    vec![own.clone(), other, damaged, unreadable(own, random)]
}
