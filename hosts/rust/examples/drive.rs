//! Drives an engine along a list of GPS fixes and prints what the program `drive` prints:
//! `drive PACK DRIVE [K]`. With K every K-th read of the pack is reported missed.
use std::{env, fs, process::ExitCode};
use terrain::cache::PAGE_BYTES;
use terrain::engine::{Ahead, End, Fix, Lookahead, Status};
use terrain::matcher::Matched;
use terrain::pack::{Error, Source};

/// Pages of the arena, and the most steps after one fix.
const PAGES: usize = 24;
const STEPS: usize = 65_536;

/// A pack of whose reads every K-th is missed, none with 0.
struct Card {
    pack: Vec<u8>,
    every: u64,
    reads: u64,
}

impl Source for Card {
    fn read(&mut self, offset: u64, buf: &mut [u8]) -> Result<(), Error> {
        self.reads += 1;
        if self.every > 0 && self.reads.is_multiple_of(self.every) {
            return Err(Error::Media);
        }
        (&self.pack[..]).read(offset, buf)
    }
}

fn place(m: &Matched) -> String {
    let way = m.forward.map_or("-", |forward| if forward { "forward" } else { "back" });
    let dm = ((m.offset_m * 10.0) as u32).min(65_535);
    let (key, edge) = (m.tile.key, m.edge);
    format!("{} {} {edge} {way} {}.{}", key.row, key.col, dm / 10, dm % 10)
}

fn line(number: usize, status: Status, a: &Ahead) -> String {
    let status = match status {
        Status::Idle => "idle",
        Status::Working => "working",
        Status::NoPack => "no-pack",
        Status::OffMap => "off-map",
    };
    let end = match a.end {
        End::Horizon => "horizon",
        End::Fork => "fork",
        End::DeadEnd => "dead-end",
        End::MapEdge => "map-edge",
        End::Uncertain => "uncertain",
        End::Memory => "memory",
    };
    let matched = a.matched.as_ref().map_or("- - - - -".into(), place);
    format!("{number} {status} {matched} {} {end} {}", a.len, a.confidence)
}

fn fix(line: &str) -> Option<Fix> {
    let mut words = line.split(' ');
    let (lat, lon) = (words.next()?.parse().ok()?, words.next()?.parse().ok()?);
    Some(Fix::from_e7(lat, lon, words.next()?.parse().ok()?))
}

/// Whole metres, halves away from zero.
fn metres(dm: i16) -> i32 {
    (f64::from(dm) / 10.0).round() as i32
}

fn drive(mut card: Card, list: &str) {
    if list.is_empty() {
        return println!("drive: the drive has no fixes");
    }
    let mut arena = vec![0; PAGES * PAGE_BYTES];
    let mut engine = Lookahead::new(&mut arena, 10_000.0);
    println!("fix status row col edge way offset samples end confidence");
    for (n, words) in list.lines().enumerate() {
        let Some(fix) = fix(words) else {
            return println!("drive: line {} is not latitude, longitude and time", n + 1);
        };
        engine.fix(fix);
        let mut steps = (0..STEPS).map(|_| engine.step(&mut card));
        let status = steps.find(|&status| status != Status::Working).unwrap_or(Status::Working);
        println!("{}", line(n + 1, status, engine.ahead()));
        if status == Status::NoPack {
            return println!("drive: the pack is refused, or eight reads of it failed");
        }
    }
    println!("distance rise");
    let a = engine.ahead();
    for (n, &dm) in a.samples[..a.len].iter().enumerate() {
        println!("{} {}", 20 * n, metres(dm));
    }
}

fn main() -> ExitCode {
    let words: Vec<String> = env::args().skip(1).collect();
    let (pack, list, every) = match &words[..] {
        [pack, list] => (pack, list, "0"),
        [pack, list, every] => (pack, list, &every[..]),
        _ => {
            eprintln!("usage: drive PACK DRIVE [K]");
            return ExitCode::from(2);
        }
    };
    let (Ok(pack), Ok(list), Ok(every)) = (fs::read(pack), fs::read_to_string(list), every.parse())
    else {
        eprintln!("drive: can't read {pack}, {list} or {every}");
        return ExitCode::from(2);
    };
    drive(Card { pack, every, reads: 0 }, &list);
    ExitCode::SUCCESS
}
