//! Cases of the format and the geometry for the list that is replayed without Rust: the Rust's
//! answers, refusals by the documents' numbers; the library is held against them.
//!
//! A case is what is given, the number, the words of the answer (zeros if refused), and for a tile
//! how many bytes it has and they, filled up to whole words.
use crate::expected::{self as rust, Grid, View};
use crate::ffi_format::{self as port, Answer};
use crate::packs::{self, RULES, SPOILT, sector, words};
use crate::random::{Random, pick};
use crate::{format, geometry, record, tally::Tally};
use std::{array, collections::BTreeSet};

/// The kind that is none: the first one is the next.
const BEFORE: usize = 64;
/// Each kind from 1 on, and the numbers that it has to have.
#[rustfmt::skip]
const KINDS: [(&str, &[u32]); 10] = [("header parse", &[0, 3, 4]), ("tile parse", &[0, 4]),
    ("key", &[0, 8, 12, 256]), ("locate", &[0, 4, 12, 256]), ("origin and entry", &[0, 9, 12]),
    ("node, edge, point", &[0, 7]), ("metres_from", &[0, 8]), ("turn", &[0, 8]),
    ("project", &[0, 8]), ("length", &[0, 8])];

type Both<const N: usize> = (&'static str, Answer<N>, Answer<N>);

struct List {
    tallies: Vec<Tally>,
    met: BTreeSet<(usize, u32)>,
}

fn le(words: &[u32]) -> Vec<u8> {
    words.iter().flat_map(|word| word.to_le_bytes()).collect()
}

/// Zeros behind the words of a shorter record.
fn wide<const N: usize>((name, port, rust): Both<N>) -> Both<7> {
    let fill = |words: [u32; N]| array::from_fn(|n| words.get(n).copied().unwrap_or(0));
    (name, port.map(fill), rust.map(fill))
}

impl List {
    fn put<const N: usize>(&mut self, kind: usize, given: &[u8], both: Both<N>, tile: &[u8]) {
        let number = both.2.err().unwrap_or(0);
        let answer = [le(&[number]), le(&both.2.unwrap_or([0; N]))].concat();
        let mut payload = [given, &answer].concat();
        if [2, 6].contains(&kind) {
            payload.extend(le(&[tile.len() as u32]));
            payload.extend(tile);
            payload.resize(payload.len().next_multiple_of(4), 0);
        }
        record::case((BEFORE + kind) as u32, &payload);
        self.met.insert((kind, number));
        self.tallies[kind - 1].same(given, both);
    }

    /// Leaves out what Rust leaves open, the bits of a not-a-number and a zero's sign.
    fn put_figures<const N: usize>(&mut self, kind: usize, given: &[f32], both: Both<N>) {
        let open = |&word: &u32| word == 1 << 31 || f32::from_bits(word).is_nan();
        if !both.2.is_ok_and(|words| words.iter().any(open)) {
            let given: Vec<u32> = given.iter().map(|x| x.to_bits()).collect();
            self.put(kind, &le(&given), both, &[]);
        }
    }

    /// Good ones, one for each rule, and bits changed with the CRC repaired or not.
    fn sectors(&mut self, random: &mut Random) {
        let mut sectors: Vec<_> = (0..8).map(|_| packs::header(random)).collect();
        sectors.extend((0..RULES).map(|rule| packs::broken(random, rule)));
        let mut sectors: Vec<_> = sectors.iter().map(|header| sector(&words(header))).collect();
        for (n, at) in [0, 15, 16, 40, 400, 507, 508].into_iter().enumerate() {
            sectors.push(sectors[n]);
            sectors.last_mut().expect("one")[at] ^= 1;
        }
        sectors[24..28].iter_mut().for_each(packs::seal_sector);
        for sector in &sectors {
            self.put(1, sector, both!(header_parse; sector), &[]);
        }
    }

    fn tile(&mut self, bytes: &[u8], [row, col]: [u32; 2], size: u32) {
        let rust = View::of(bytes, row, col, size).map(|view| view.words());
        let both = ("tile_parse", port::tile_parse(bytes, row, col, size), rust);
        self.put(2, &le(&[row, col, size]), both, bytes);
    }

    fn tiles(&mut self, random: &mut Random) {
        for way in 0..SPOILT {
            let (plain, size) = packs::small(random);
            self.tile(&packs::spoilt(random, &plain, size, way), plain.key(), size);
        }
        for size in [0, 1, 65_535, 65_536, u32::MAX] {
            let (plain, _) = packs::small(random);
            self.tile(&plain.bytes(), plain.key(), size);
        }
        for _ in 0..4 {
            let (plain, size) = packs::unordered(random);
            self.tile(&plain.bytes(), plain.key(), size);
        }
        let empty = packs::lone(random, 32).0;
        (0..=32).step_by(8).for_each(|len| self.tile(&empty.bytes()[..len], empty.key(), 1));
    }

    fn grids(&mut self, random: &mut Random) {
        for n in 0..80 {
            let broken = n % 5 == 0;
            let h = if broken { packs::broken(random, n / 5) } else { packs::header(random) };
            let (g, w) = (&Grid::of(h, 0), &words(&h));
            let (lat, lon) = format::point(random, &h);
            let given = [le(w), le(&[lat as u32, lon as u32])].concat();
            self.put(3, &given, both!(header_key, w, g, lat, lon), &[]);
            let entry = &format::entry(random, &h);
            let given = [le(w), entry.to_vec()].concat();
            self.put(4, &given, both!(header_locate, w, g, entry), &[]);
            let [row, col] = [h.rows, h.cols].map(|n| format::line(random, n) as u16 as u32);
            let origin = both!(header_origin, w, g, row, col);
            let entry = both!(header_entry, w, g, row, col);
            let join = |a: Answer<2>, b: Answer<2>| Ok([a?[0], a?[1], b?[0], b?[1]]);
            let both = ("origin, entry", join(origin.1, entry.1), join(origin.2, entry.2));
            self.put(5, &[le(w), le(&[row, col])].concat(), both, &[]);
        }
    }

    /// First and last records of a tile, one past them, and points to the end and past it.
    fn records(&mut self, random: &mut Random) {
        for n in 0..10 {
            let (plain, size) = packs::small(random);
            let (bytes, [row, col]) = (&plain.bytes()[..], plain.key());
            let v = &View::of(bytes, row, col, size).expect("a good tile");
            let at = pick(&[0, v.nodes - 1, v.nodes, 65_535], random);
            self.put(6, &le(&[0, at, 0]), wide(both!(tile_node, bytes, v, at)), bytes);
            let at = pick(&[0, v.edges - 1, v.edges, 65_535], random);
            self.put(6, &le(&[1, at, 0]), both!(tile_edge, bytes, v, at), bytes);
            let at = random.below(v.edges.into()) as u32;
            let edge = v.tile.edge(at as u16);
            for index in [n % 3, edge.vertices.into(), usize::from(edge.vertices) + 1 + n] {
                let port = port::tile_point(bytes, &packs::edge_words(&edge, 0), index);
                let both = ("tile_point", port, rust::tile_point(v, &edge, index));
                self.put(6, &le(&[2, at, index as u32]), wide(both), bytes);
            }
        }
    }

    fn geometry(&mut self, random: &mut Random) {
        for _ in 0..100 {
            let ([lat, lon, from_lat, from_lon], lon_um) = geometry::places(random);
            let given = le(&[lat as u32, lon as u32, from_lat as u32, from_lon as u32, lon_um]);
            self.put(7, &given, both!(metres_from; lat, lon, from_lat, from_lon, lon_um), &[]);
            let (from, to) = (geometry::heading(random), geometry::heading(random));
            self.put_figures(8, &[from, to], both!(turn; from, to));
            let all @ [px, py, ax, ay, bx, by] = geometry::figures(random);
            self.put_figures(9, &all, both!(project; px, py, ax, ay, bx, by));
            let [east, north] = geometry::figures(random);
            self.put_figures(10, &[east, north], both!(length; east, north));
        }
    }
}

/// Counts and records them.
pub fn count() -> Vec<Tally> {
    let tallies = KINDS.map(|(name, _)| Tally::new(name)).into();
    let (mut list, random) = (List { tallies, met: BTreeSet::new() }, &mut Random(0));
    list.sectors(random);
    list.tiles(random);
    list.grids(random);
    list.records(random);
    list.geometry(random);
    for (n, (name, numbers)) in KINDS.iter().enumerate() {
        let met = |&number| list.met.contains(&(n + 1, number));
        assert!(numbers.iter().all(met), "{name}: not every number of {numbers:?}");
    }
    list.tallies
}
