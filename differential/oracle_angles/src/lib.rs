//! The Rust original with its two angle functions answered by the port: build.rs writes the
//! sources to target/terrain_angles and links libterrain.a. The ways of matcher, prediction and engine
//! are counted.
#![no_std]

use core::sync::atomic::{AtomicU64, Ordering};

/// The ways of the matcher that are counted, in the order of their numbers.
pub const WAYS: [&str; 10] = [
    "lost after three misses",
    "joined edge takes over",
    "challenger held off",
    "switched after two",
    "past the node",
    "direction inherited",
    "direction reversed",
    "ninth dropped as equal",
    "ninth replacing",
    "ninth dropped as dearer",
];
/// How often each was taken.
pub static MET: [AtomicU64; 10] = [const { AtomicU64::new(0) }; 10];

fn met(way: usize, is_so: bool) {
    MET[way].fetch_add(u64::from(is_so), Ordering::Relaxed);
}

/// What is counted, and its names.
macro_rules! counted {
    ($one:ident, $all:ident; $($rule:ident: $name:literal,)*) => {
        #[derive(Clone, Copy, PartialEq)]
        pub enum $one { $($rule,)* }
        pub const $all: &[($one, &str)] = &[$(($one::$rule, $name),)*];
    };
}

// The rules of a prediction.
counted! { Rule, RULES;
    Horizon: "ends at the horizon",
    Fork: "ends at a fork",
    DeadEnd: "ends as a dead end",
    MapEdge: "ends at the map's edge",
    Uncertain: "ends uncertain",
    Memory: "ends for memory",
    NoDirection: "no direction",
    MaxEdges: "the last of 2,000 edges",
    Unsure: "confidence below 0.3",
    OverBudget: "pages past the budget",
    NinetySeventh: "a 97th tile",
    NeedStart: "needs the start's tile",
    NeedTwin: "needs a twin's tile",
    NeedOwn: "needs the tile of an edge that was chosen",
    HorizonInside: "horizon inside a segment",
    HorizonStill: "horizon at a segment without length",
    HorizonBehind: "horizon behind",
    AllSamples: "all 501 samples",
    Clamped: "a height clamped",
    VisitedWraps: "visited wraps",
    HistoryFull: "history full",
    HeadingSpan: "heading from 25 m back",
    HeadingOldest: "heading from the oldest point",
    HeadingKept: "heading of the approach, for want of length",
    HeadingStill: "heading from a segment without length",
    EntryTaken: "roundabout entry taken",
    EntryKept: "roundabout entry kept",
    RoadKept: "road kept on a roundabout",
    OwnEdge: "way left out: the edge itself",
    WrongWay: "way left out: against a oneway",
    Visited: "way left out: visited",
    ChoicesFull: "way left out: twelve are kept",
    Turn: "cost of a turn",
    TurnHeld: "cost of a turn, held to 4",
    Exit: "cost of an exit, from the entry's heading",
    RoundOn: "cost of going on round, 1.2",
    SameRoad: "cost less for the same road",
    MoreMinor: "cost of a class more minor",
    MoreMajor: "cost less for a class more major",
    Link: "cost of a link",
    Track: "cost of a track or path",
    Cycleway: "cost of a cycleway",
    BlockedByGrid: "blocked by the grid's end",
    BlockedByMissing: "blocked by a missing tile",
    BlockedAndOn: "blocked, and a way on",
    Twin: "twin found",
    NoTwin: "no twin in the other tile",
    OtherTile: "on into another tile",
    OnlyWay: "one way on alone",
    Close: "margin below 1",
    Equal: "margin 0",
    NearOne: "margin 1 but for rounding",
    Clear: "margin of 4 and more",
    NotRidden: "ridden: nothing",
    RiddenInside: "ridden: begins inside a segment",
    RiddenFromStart: "ridden: from the edge's start",
    RiddenFromEnd: "ridden: from the edge's end",
    AllBehind: "ridden: all 11 samples",
    OneMore: "ridden: one more sample",
    OneMoreCut: "ridden: one more sample, cut to 16 bits",
}

/// How often each applied.
pub static WAS: [AtomicU64; RULES.len()] = [const { AtomicU64::new(0) }; RULES.len()];

impl Rule {
    /// The rules for the ends come first, in the order of their numbers.
    fn of_end(end: u32) -> Self {
        RULES[end as usize].0
    }
}

fn was(rule: Rule, is_so: bool) {
    if is_so {
        WAS[rule as usize].fetch_add(1, Ordering::Relaxed);
    }
}

// The paths of an engine: how steps end, the ends of published roads, then what leads there.
counted! { Path, PATHS;
    Idle: "status Idle",
    Working: "status Working",
    NoPack: "status NoPack",
    OffMap: "status OffMap",
    Horizon: "published: Horizon",
    Fork: "published: Fork",
    DeadEnd: "published: DeadEnd",
    MapEdge: "published: MapEdge",
    Uncertain: "published: Uncertain",
    Memory: "published: Memory",
    ResetWithFix: "reset with a fix",
    ResetWithout: "reset without a fix",
    SamePlace: "fix at the same place",
    HeadingSet: "heading set",
    HeadingAged: "heading aged out",
    HistoryFull: "history full",
    LostPublished: "lost with a published match",
    LostNothing: "lost without",
    HeaderRead: "header read",
    HeaderMissed: "header missed, to be read again",
    HeaderEighth: "header missed the eighth time",
    HeaderPast: "header past the end",
    HeaderRule: "header that breaks a rule",
    HeaderSum: "header whose sum is wrong",
    LoadDone: "load done",
    LoadMore: "load goes on",
    LoadMissed: "load missed",
    LoadPast: "load past the end",
    BadEntry: "load with a bad entry",
    LoadEighth: "load failed the eighth time",
    LoadDropped: "load dropped for another",
    NoPages: "tile missing: no pages",
    NoTile: "tile missing: no roads",
    NoRoom: "tile missing: too large",
    Corrupt: "tile missing: corrupt",
    RingWraps: "ring of missing tiles wraps",
    ClockWraps: "clock passes 2^32",
    VictimAcross: "victim of runs used before and after that",
    LoadsWrap: "count of loads passes 2^32",
    StepsWrap: "count of steps passes 2^32",
    NoFix: "no fix",
    OffMapPublished: "off the map with a published match",
    OffMapNothing: "off the map without",
    MatchNeeds: "match needs a tile",
    MatchLimit: "reload limit in a match",
    NonePublished: "none found with a published match",
    NoneNothing: "none found without",
    FirstRoad: "road due: the first",
    ChangedEdge: "road due: changed edge alone",
    TimeDue: "road due: time alone",
    NotDue: "match and no road due",
    RoadNoMatch: "road due and no match any more",
    Rematch: "rematch by 6",
    RoadNeeds: "road needs a tile",
    RoadLimit: "reload limit in a road",
    Road: "road published",
    GenerationWraps: "generation passes 2^32",
    NothingDue: "nothing due",
}

/// How often each was taken.
pub static TOOK: [AtomicU64; PATHS.len()] = [const { AtomicU64::new(0) }; PATHS.len()];

impl Path {
    /// The statuses come first, in the order of their numbers.
    fn of_status(status: u32) -> Self {
        PATHS[status as usize].0
    }

    /// Then the ends.
    fn of_end(end: u32) -> Self {
        PATHS[4 + end as usize].0
    }
}

fn took(path: Path, is_so: bool) {
    if is_so {
        TOOK[path as usize].fetch_add(1, Ordering::Relaxed);
    }
}

#[rustfmt::skip]
#[path = "../../target/terrain_angles"]
mod changed {
    pub mod cache; pub mod engine; pub mod geo; pub mod matcher;
    pub mod pack; pub mod predict; pub mod tile;
}
pub use changed::*;

/// The degrees, or a number that is not 0.
#[repr(C)]
struct Degrees {
    number: u32,
    degrees: f32,
}

unsafe extern "C" {
    safe fn terrain_bearing(east: f32, north: f32) -> Degrees;
    safe fn terrain_lon_scale_um(lat: i32) -> u32;
}
