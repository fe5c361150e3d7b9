//! Words that no field can hold, and the largest that they can where nothing tests them.
use super::states::state;
use super::{Of, Row};
use crate::ffi_terrain::{self as port, Given, Matched, Outcome, Point, Road};
use crate::replay::layout as at;
use crate::tally::Tally;

/// What a word's field holds.
#[derive(Clone, Copy)]
enum Field {
    /// Numbers from 0 to this.
    To(u32),
    /// 16 bits, signed.
    Short,
    Figure,
}

impl Field {
    /// Words that it can't hold.
    fn above(self) -> Vec<u32> {
        match self {
            Self::To(most) => vec![most + 1, most + 2, 1 << 31, u32::MAX],
            Self::Short => vec![0x8000, 0xffff, 0x1_0000, 0xffff_7fff, 0x8000_0000],
            Self::Figure => {
                vec![
                    0x7f80_0001,
                    0x7fbf_ffff,
                    0x7fc0_0001,
                    0x7fff_ffff,
                    0xff80_0001,
                    0xffc0_0000,
                    u32::MAX,
                ]
            }
        }
    }

    /// The ends of what it holds.
    fn ends(self) -> Vec<u32> {
        match self {
            Self::To(most) => vec![0, most],
            Self::Short => vec![0, 0x7fff, 0xffff_8000, u32::MAX],
            Self::Figure => {
                vec![0, 0x8000_0000, 0x7f80_0000, 0xff80_0000, 0x7f7f_ffff, 0x7fc0_0000]
            }
        }
    }
}

const SHORT: Field = Field::To(65_535);
const BYTE: Field = Field::To(255);
const FLAG: Field = Field::To(1);

/// A match from its key on, as places: edges, edge, segment, fraction, direction, offset, class,
/// flags, confidence, ridden.
fn of_match(place: usize) -> Vec<(usize, Field)> {
    let fields = [
        (3, SHORT),
        (4, SHORT),
        (5, SHORT),
        (6, Field::Figure),
        (7, Field::To(2)),
        (8, Field::Figure),
        (10, BYTE),
        (11, BYTE),
        (12, BYTE),
        (13, Field::Figure),
    ];
    fields.map(|(n, field)| (place + n, field)).to_vec()
}

/// Fields that nothing but their width limits, in a state that has a match, a fix and a road.
fn free() -> Vec<(usize, Field)> {
    let road = [
        (at::END, Field::To(5)),
        (at::BEHIND_M, Field::Figure),
        (at::END_M, Field::Figure),
        (at::CONFIDENCE, BYTE),
        (at::HORIZON, Field::Figure),
    ];
    let samples = (at::SAMPLES..at::LEN).chain(at::BEHIND..at::BEHIND_LEN);
    let run = [(at::MISSES_OF, BYTE), (at::RUN_FROM_OF, Field::Figure)];
    let due = [(at::MATCHING, FLAG), (at::ROAD, FLAG)];
    let published = of_match(at::MATCHED).into_iter();
    // The matched edge and its tile's count are tested with each other.
    let current = of_match(at::MATCHER).into_iter().skip(2);
    let all = road.into_iter().chain(run).chain(due).chain(published).chain(current);
    all.chain(samples.map(|n| (n, Field::Short))).collect()
}

/// Fields that other causes limit further.
fn limited() -> Vec<(usize, Field)> {
    let tags =
        [at::LOADING, at::FIX, at::HEADING, at::MATCHER, at::LAST_ROAD, at::NEED, at::MATCHED];
    let tags = tags.into_iter().chain((0..at::PLACES).map(|n| at::RING + 2 * n));
    let tags = tags.map(|place| (place, FLAG));
    let rest = [
        (at::PHASE, Field::To(2)),
        (at::PENDING, Field::To(3)),
        (at::HEADER + 3, SHORT),
        (at::HEADER + 4, SHORT),
        (at::MATCHER + 3, SHORT),
        (at::MATCHER + 4, SHORT),
        (at::RELOADS, SHORT),
        (at::FAILURES, BYTE),
        (at::CHALLENGER_OF, FLAG),
    ];
    tags.chain(rest).collect()
}

/// Enums: the tag's place, its fields, and the tags that have none of them.
const ENUMS: [(usize, usize, &[u32]); 8] = [
    (at::LOADING, 5, &[0]),
    (at::PENDING, 1, &[0, 1, 3]),
    (at::FIX, 4, &[0]),
    (at::HEADING, 1, &[0]),
    (at::MATCHER, 13, &[0]),
    (at::CHALLENGER_OF, 5, &[0]),
    (at::LAST_ROAD, 2, &[0]),
    (at::MATCHED, 13, &[0]),
];

/// A field of a variant that has none.
fn absent() -> Vec<Vec<(usize, u32)>> {
    let pairs = (0..at::PLACES).map(|n| at::RING + 2 * n).chain([at::NEED]);
    let pairs = pairs.map(|place| (place, 1, &[0][..]));
    let mut out = Vec::new();
    for (place, fields, tags) in ENUMS.into_iter().chain(pairs) {
        for (&tag, n) in tags.iter().flat_map(|tag| (1..=fields).map(move |n| (tag, n))) {
            let none = (1..=fields).map(|n| (place + n, 0)).chain([(place, tag)]);
            out.extend([1, u32::MAX].map(|word| none.clone().chain([(place + n, word)]).collect()));
        }
    }
    // A key in a page that has none.
    out.extend((2..at::PAGES).map(|page| vec![(at::SLOTS + 3 * page + 1, 1)]));
    out
}

/// A length and a part of a page, which nothing else limits in a page that starts no run.
fn slots() -> Vec<Vec<(usize, u32)>> {
    let pages = (2..at::PAGES).map(|page| at::SLOTS + 3 * page);
    let lens = pages
        .clone()
        .flat_map(|place| SHORT.above().into_iter().map(move |len| vec![(place + 2, len)]));
    let parts = [257, 258, u32::MAX >> 2];
    let parts = pages.flat_map(move |place| parts.map(|part| vec![(place, 4 * part)]));
    lens.chain(parts).collect()
}

/// The challenger's fields, in a state that has one.
fn challenger() -> Vec<Vec<(usize, u32)>> {
    let there =
        [1, 0, 99, 7, 6, 1].into_iter().enumerate().map(|(n, word)| (at::CHALLENGER_OF + n, word));
    let fields = [(3, SHORT), (4, SHORT), (5, BYTE)];
    let above =
        fields.into_iter().flat_map(|(n, field)| field.above().into_iter().map(move |w| (n, w)));
    above.map(|(n, word)| there.clone().chain([(at::CHALLENGER_OF + n, word)]).collect()).collect()
}

/// A heading's figure, in a state that has one.
fn headings() -> Vec<Vec<(usize, u32)>> {
    let above = Field::Figure.above().into_iter();
    above.map(|word| vec![(at::HEADING, 1), (at::HEADING + 1, word)]).collect()
}

pub fn rows() -> Vec<Row> {
    let row = |name: &str, state, set, refused| {
        let (of, name) = (if refused { Of::Words } else { Of::Engine }, name.into());
        Row { name, state, set, lent: None, of, refused }
    };
    let mut rows = Vec::new();
    for (place, field) in free().into_iter().chain(limited()) {
        let above = field.above().into_iter();
        rows.extend(
            above.map(|word| row("above its field", "open chunk", vec![(place, word)], true)),
        );
    }
    for set in absent().into_iter().chain(slots()).chain(challenger()).chain(headings()) {
        rows.push(row("of no variant", "open chunk", set, true));
    }
    let versions = [0, 2, 1 << 16, u32::MAX];
    for (state, version) in ["fresh", "idle"].iter().flat_map(|s| versions.map(|v| (*s, v))) {
        rows.push(row("version", state, vec![(at::VERSION, version)], true));
    }
    for state in ["open chunk", "match due", "road due"] {
        for (place, field) in free() {
            let ends = field.ends().into_iter();
            rows.extend(
                ends.map(|word| row("end of its field", state, vec![(place, word)], false)),
            );
        }
        // Counts and times of 32 and 64 bits.
        let counts = [at::CLOCK, at::USED, at::LOADS, at::STEPS, at::GENERATION, at::START_Z];
        let times =
            [at::AT, at::AT + 1, at::HEADING_AT, at::HEADING_AT + 1, at::FIX + 3, at::FIX + 4];
        let whole = counts.into_iter().chain(times).map(|place| vec![(place, u32::MAX)]);
        rows.extend(whole.map(|set| row("end of its field", state, set, false)));
    }
    rows
}

/// The matcher's own words, through the calls that are given them.
pub fn matchers() -> Tally {
    let s = state("match due");
    let mut tally = Tally::new("12, matcher's words");
    let of_match = of_match(0).into_iter().chain([(0, FLAG), (at::CHALLENGER, FLAG)]);
    let fields = of_match.chain([(at::MISSES, BYTE), (at::RUN_FROM, Field::Figure)]);
    let fix = Point { lat: 47_001_500, lon: 8_001_750 };
    for (place, word) in
        fields.flat_map(|(n, field)| field.above().into_iter().map(move |w| (n, w)))
    {
        let mut matcher = s.matcher;
        matcher[place] = word;
        let (given, mut words) = (matcher, s.words);
        let answer = port::matcher_update(&mut matcher, &mut words, &s.arena, s.header, fix, None);
        let same = matches!(answer, Outcome::Refused(12)) && (matcher, words) == (given, s.words);
        tally.count(same, (place, word), "another answer", "12, and nothing changed");
        let current = port::matcher_current(&matcher).err();
        tally.count(current == Some(12), (place, word), current, "12");
    }
    arguments(&mut tally);
    tally
}

/// A heading and a start that are given otherwise than there are any.
fn arguments(tally: &mut Tally) {
    let s = state("match due");
    for known in [2, 3, u32::MAX] {
        let (mut m, mut w, given) = (s.matcher, s.words, Given { known, degrees: 90.0 });
        let answer = port::updated(&mut m, &mut w, &s.arena, s.header, s.fix, given);
        let same = matches!(answer, Outcome::Refused(12)) && (m, w) == (s.matcher, s.words);
        tally.count(same, ("heading", known), "another answer", "12, and nothing changed");
    }
    let start: [u32; 13] = s.matcher[1..14].try_into().expect("13 words");
    for (matched, forward) in [(0, 1), (2, 1), (u32::MAX, 2), (1, 3), (1, u32::MAX)] {
        let start = Matched::told(matched, forward, &start);
        let (mut w, mut ahead, mut behind) = (s.words, [7; at::AHEAD], [7; at::BACK]);
        let answer = port::predict(&mut w, &s.arena, s.header, start, 1e4, &mut ahead, &mut behind);
        let kept = w == s.words && ahead == [7; at::AHEAD] && behind == [7; at::BACK];
        let same = matches!(answer, Road::Refused(12)) && kept;
        tally.count(same, ("start", matched, forward), "another answer", "12, and nothing changed");
    }
}
