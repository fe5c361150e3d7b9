//! The lists of docs/DEMAND3.md in which a missed read shows in a later match: because of it a road
//! is still due when the fix lies off the map, so that nothing stands published there; or no step
//! finds the fix off the map before the next one. In both the match is kept that else is cleared.
//! Port and Rust side by side, and the edge that the last fix is on.
use super::Case;
use super::script::*;
use crate::matching::roads::{Grid, Road};
use crate::road::networks::plain;
use crate::tally::Tally;
use oracle_angles::cache::PAGE_BYTES;

/// Places of the words that say whether a match is published, and its edge.
const MATCHED: usize = 15;
const EDGE: usize = 19;

/// Fixes, each with its latitude, longitude and time and the steps after it; and the step that reads
/// a tile's entry, by the fix before it and its number.
struct List {
    name: &'static str,
    fixes: &'static [((i32, i32), u64, usize)],
    entry: (usize, usize),
}

const LISTS: [List; 2] = [
    List {
        name: "a road due off the map",
        fixes: &[((5_000, 5_000), 0, 6), ((-10, 5_000), 1_000, 2), ((5_150, 5_000), 2_000, 4)],
        entry: (0, 2),
    },
    List {
        name: "no step off the map",
        fixes: &[
            ((5_000, 5_000), 0, 6),
            ((5_000, 15_000), 1_000, 1),
            ((-10, 5_000), 1_500, 2),
            ((5_150, 5_000), 2_000, 4),
        ],
        entry: (2, 0),
    },
];

fn road(y: i64) -> Road {
    Road { places: vec![(1_000, y, 3_000), (9_000, y, 3_000)], class: 3, flags: 0, group: 0 }
}

/// One page; one tile with two roads due east, 22 m apart, and east of it one without a road.
fn listed(list: &List, is_missed: bool) -> Case {
    let grid = Grid { size: 10_000, rows: 1, cols: 2, south: 0, west: 0, lon_um: 111_195 };
    let pack = plain(grid, vec![road(5_000), road(5_200)]).pack.bytes;
    Case::new(vec![pack], vec![0; PAGE_BYTES], |writer| {
        for (n, &(point, at_ms, steps)) in list.fixes.iter().enumerate() {
            writer.fix(point, at_ms);
            for step in 0..steps {
                let missed = is_missed && (n, step) == list.entry;
                writer.advance(if missed { MISSED } else { BYTES });
            }
        }
    })
}

pub fn compare() -> Tally {
    let mut tally = Tally::new("engine, off the map");
    for list in &LISTS {
        for (is_missed, edge) in [(false, 1), (true, 0)] {
            let case = listed(list, is_missed);
            case.count(&mut tally, list.name);
            let head = case.answers[case.answers.len() - 1].head;
            let last = (head[MATCHED], head[EDGE]);
            tally.count(last == (1, edge), (list.name, "missed", is_missed), last, (1, edge));
        }
    }
    tally
}
