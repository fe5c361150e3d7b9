//! Tiles with nodes out of order, which the Rust takes: document 02, request 7. A load that ends
//! with such a tile makes it missing, and a ready run that becomes one is refused where it is
//! looked up.
use super::packs::{self, Pack};
use super::refusals::{ask, refuse};
use super::script::*;
use super::{Case, Writer};
use crate::packs as tiles;
use crate::random::Random;
use crate::tally::Tally;
use oracle_cache::cache::PAGE_BYTES;

/// The only tile.
const TILE: u32 = 0;

fn case(pack: &Pack, random: &mut Random, write: impl FnOnce(&mut Writer)) -> Case {
    let pages = 1 + random.below(3) as usize;
    Case::new(pack, vec![random.next() as u8; pages * PAGE_BYTES + 9], write)
}

/// The Rust is given a tile size that a node passes, so that it refuses the same bytes; nothing
/// else that it answers goes by that size.
fn missing(pack: &Pack, most: u16, random: &mut Random) -> Case {
    let mut header = pack.header;
    header.tile = u32::from(most) - 1;
    case(&Pack { header, bytes: pack.bytes.clone() }, random, |writer| {
        assert_eq!(writer.settle(TILE), ends(DONE));
        assert_eq!(writer.put(GET, &[TILE]), ends(MISSING));
        ask(writer, &[FETCH, STEP, LOAD_FROM, PAGES, LOADS], TILE);
    })
}

/// The sorted tile is loaded, and its bytes in the arena become those of the other.
fn late(sorted: &[u8], unsorted: &[u8], pack: &Pack, random: &mut Random) -> Case {
    let set = |writer: &mut Writer, bytes: &[u8]| {
        for at in (0..bytes.len()).filter(|&n| sorted[n] != unsorted[n]) {
            writer.put(SET_BYTE, &[at as u32, bytes[at].into()]);
        }
    };
    case(pack, random, |writer| {
        assert_eq!(writer.settle(TILE), ends(DONE));
        ask(writer, &[GET], TILE);
        set(writer, unsorted);
        refuse(writer, &[GET, FETCH, STEP, LOAD_FROM], TILE, 12);
        ask(writer, &[PAGES, CAPACITY, LOADS], TILE);
        set(writer, sorted);
        ask(writer, &[GET, FETCH, STEP], TILE);
    })
}

pub fn count(tally: &mut Tally, random: &mut Random) {
    let (mut plain, size) = tiles::unordered(random);
    (plain.key.row, plain.key.col) = (0, 0);
    let most = plain.nodes.iter().map(|node| node.x.max(node.y)).max().unwrap_or(0);
    let unsorted = plain.bytes();
    missing(&packs::one(&unsorted, size), most, random).count(tally, "missing");
    plain.sort();
    let sorted = plain.bytes();
    late(&sorted, &unsorted, &packs::one(&sorted, size), random).count(tally, "late");
}
