//! Predictions by the Rust whose angles are the port's, over the cache and the matcher of a script.
//! A start's key outside the grid (9) and a start outside its tile (10) are refused here, and a
//! ready run that no longer passes where it is looked up (12); states that document 01 refuses
//! before any lookup are the table's to answer.
use super::script::*;
use crate::cache::script::{Ending, REFUSED, Record, ends};
use crate::matching::oracle::Oracle;
use crate::matching::script::{NEED, NOTHING, figure, key_word};
use oracle_angles::cache::{Cache, Lookup, PAGE_BYTES};
use oracle_angles::matcher::Matched;
use oracle_angles::pack::{Header, TileKey};
use oracle_angles::predict::{Need, Prediction, predict};
use oracle_angles::tile::{Tile, crc32};

/// The most decimetres that a start may lie above or below 0.
const HIGHEST: i32 = 1_000_000;

/// The heights that a call is lent.
type Heights = Box<[i16; HEIGHTS]>;

pub fn refused(number: u32) -> Ending {
    [REFUSED, number, 0, 0]
}

/// The heights that a record lends: full of its mark.
fn lent(record: &Record) -> Heights {
    Box::new([record[2] as i16; HEIGHTS])
}

/// The answer with the cache's clock and ages as they are.
fn answer(oracle: &Oracle, ending: Ending, road: [u32; 6], heights: Option<Heights>) -> Answer {
    let c = &oracle.cache.cache;
    let ages: Vec<u8> = c.used.iter().flat_map(|age| age.get().to_le_bytes()).collect();
    let mut head = [0; HEAD];
    head[..4].copy_from_slice(&ending);
    head[4..6].copy_from_slice(&[c.clock.get(), crc32(&ages)]);
    head[6..12].copy_from_slice(&road);
    Answer { head, heights }
}

/// The answer to a record of another kind, from the matcher's answer to it.
pub fn other(words: &[u32]) -> Answer {
    let mut head = [0; HEAD];
    head[..6].copy_from_slice(&words[..6]);
    Answer { head, heights: None }
}

/// The answer to a prediction that is refused and leaves everything as it is.
pub fn unchanged(oracle: &Oracle, record: &Record, number: u32) -> Answer {
    answer(oracle, refused(number), [0; 6], Some(lent(record)))
}

/// The road's words of an answer.
fn words(p: &Prediction) -> [u32; 6] {
    let [len, behind, end] = [p.len, p.behind, p.end as usize].map(|n| n as u32);
    [len, behind, figure(p.behind_m), end, figure(p.end_m), p.confidence.into()]
}

/// Whether edge, segment, fraction and height of a start are within its tile and the rules.
fn fits(tile: &Tile, start: &Matched) -> bool {
    usize::from(start.edge) < tile.edge_count()
        && start.segment <= tile.edge(start.edge).vertices
        && (0.0..=1.0).contains(&start.fraction)
        && (-HIGHEST..=HIGHEST).contains(&start.z_dm)
}

/// The keys of ready runs that no longer pass; those runs are ready no more, so that a lookup of
/// one ends the call as it would end with 12.
fn stale(cache: &mut Cache, arena: &[u8], size: u32) -> Vec<TileKey> {
    let passes = |page: usize, len: usize, key| {
        let run = arena.get(page * PAGE_BYTES..page * PAGE_BYTES + len);
        run.is_some_and(|bytes| Tile::parse(bytes, key, size).is_ok())
    };
    let mut keys = Vec::new();
    for page in 0..cache.count {
        let slot = cache.slots[page];
        let Some(key) = slot.key.filter(|_| slot.ready) else {
            continue;
        };
        if !passes(page, slot.len, key) {
            keys.push(key);
        }
    }
    let slots = cache.slots.iter_mut();
    slots.filter(|slot| slot.key.is_some_and(|key| keys.contains(&key))).for_each(|slot| {
        slot.ready = false;
    });
    keys
}

/// Clock and ages, to put them back.
fn held(cache: &Cache) -> (u32, Vec<u32>) {
    (cache.clock.get(), cache.used.iter().map(|age| age.get()).collect())
}

fn restore(cache: &Cache, (clock, ages): &(u32, Vec<u32>)) {
    cache.clock.set(*clock);
    cache.used.iter().zip(ages).for_each(|(cell, age)| cell.set(*age));
}

/// Whether the start's tile is found and is the start's, but has no such place. The lookup has
/// been made then; else it is taken back.
fn outside(cache: &Cache, start: &Matched) -> bool {
    let before = held(cache);
    let outside = match cache.get(start.tile.key) {
        Lookup::Ready(tile) => tile.id() == start.tile && !fits(&tile, start),
        Lookup::Missing | Lookup::Absent => false,
    };
    if !outside {
        restore(cache, &before);
    }
    outside
}

/// A prediction over what is lent.
fn called(
    cache: &Cache,
    header: &Header,
    start: &Matched,
    horizon: f32,
    heights: &mut [i16; HEIGHTS],
) -> (Ending, [u32; 6]) {
    if start.forward.is_some() && outside(cache, start) {
        return (refused(10), [0; 6]);
    }
    let (ahead, behind) = heights.split_at_mut(AHEAD);
    let ahead = ahead.try_into().expect("501 samples");
    let behind = behind.try_into().expect("11 samples");
    match predict(cache, header, start, horizon, ahead, behind) {
        Ok(road) => (ends(IS_ROAD), words(&road)),
        Err(Need::Tile(key)) => ([NEED, key_word(key), 0, 0], [0; 6]),
        Err(Need::Match) => (ends(REMATCH), [0; 6]),
    }
}

/// The answer to a prediction. `late`: a run may no longer pass.
pub fn road(oracle: &mut Oracle, record: &Record, late: bool) -> Answer {
    let Some(start) = oracle.matcher.current else {
        return answer(oracle, ends(NOTHING), [0; 6], None);
    };
    if !oracle.cache.in_grid(crate::cache::script::key(key_word(start.tile.key))) {
        return unchanged(oracle, record, 9);
    }
    let (horizon, mut heights) = (f32::from_bits(record[1]), lent(record));
    let arena = if late { oracle.cache.cache.arena.to_vec() } else { Vec::new() };
    let (ending, road) = oracle.lent(|cache, header, _| {
        let stale = if late { stale(cache, &arena, header.tile) } else { Vec::new() };
        let before = held(cache);
        let (ending, road) = called(cache, header, &start, horizon, &mut heights);
        if ending[0] == NEED && stale.iter().any(|&key| key_word(key) == ending[1]) {
            restore(cache, &before);
            return (refused(12), road);
        }
        (ending, road)
    });
    answer(oracle, ending, road, Some(heights))
}
