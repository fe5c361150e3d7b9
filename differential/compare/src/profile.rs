//! The program `profile` and its whole metres: what it has to print, by rounding doubles, which
//! Rust does to nearest and halves away from zero. The stored outputs are held to it, and the
//! program itself on every 16-bit height.
use crate::tally::Tally;
use std::fs;
use std::io::Write;
use std::process::{Command, Output, Stdio};

pub const ROOT: &str = concat!(env!("CARGO_MANIFEST_DIR"), "/../..");

/// The most samples of an input.
pub const SAMPLES: usize = 501;

fn whole_metres(dm: i16) -> i32 {
    (f64::from(dm) / 10.0).round() as i32
}

/// Metres ahead and rise of each sample.
pub fn table(samples: &[i16]) -> String {
    let rows = samples.iter().enumerate();
    let rows = rows.map(|(n, &dm)| format!("{} {}\n", 20 * n, whole_metres(dm)));
    ["distance rise\n".into()].into_iter().chain(rows).collect()
}

fn text(input: &[u8]) -> String {
    if input.len() % 2 == 1 || input.len() > 2 * SAMPLES {
        return "bad input\n".into();
    }
    let samples: Vec<i16> =
        input.chunks(2).map(|pair| i16::from_le_bytes([pair[0], pair[1]])).collect();
    table(&samples)
}

pub fn bytes(samples: &[i16]) -> Vec<u8> {
    samples.iter().flat_map(|dm| dm.to_le_bytes()).collect()
}

/// The inputs of the program `profile_cases`, in its order.
fn cases() -> Vec<Vec<u8>> {
    let small = [9, 10, -9, -10, -11, -1];
    let halves = [4, 5, 6, -4, -5, -6, 14, 15, -14, -15, 25, -25];
    let lists = [&[][..], &[25], &[i16::MIN, i16::MAX], &small, &halves].map(bytes);
    let odd = [vec![25], vec![25, 0, 25], vec![1; 2 * SAMPLES], vec![1; 2 * SAMPLES + 2]];
    lists.into_iter().chain(odd).collect()
}

/// What the program `profile_cases` prints.
fn cases_text() -> String {
    cases().iter().map(|input| text(input)).collect::<String>() + "0 of 65536 differ\n"
}

fn stored() -> Tally {
    let read = |name: &str| fs::read(format!("{ROOT}/crates/{name}")).expect("a stored file");
    let profile = text(&read("profile/stdin"));
    let mut tally = Tally::new("profile, stored outputs");
    for (name, made) in [("profile/stdout", profile), ("profile_cases/stdout", cases_text())] {
        tally.count(read(name) == made.as_bytes(), name, read(name), made);
    }
    tally
}

/// Prints what `profile` prints for a file, or without one what `profile_cases` does.
pub fn print(file: Option<&str>) -> Vec<Tally> {
    let read = |name| fs::read(name).expect("the input can be read");
    print!("{}", file.map_or_else(cases_text, |name| text(&read(name))));
    Vec::new()
}

/// What a program of the repository writes for an input. One that ends before it has read all of it
/// is no failure.
pub fn ran(program: &str, words: &[&str], input: &[u8]) -> Output {
    let path = format!("{ROOT}/crates/{program}/out/{program}");
    let mut child = Command::new(&path)
        .args(words)
        .stdin(Stdio::piped())
        .stdout(Stdio::piped())
        .stderr(Stdio::piped())
        .spawn()
        .unwrap_or_else(|why| panic!("{path}: {why} (rt run in crates/{program} builds it)"));
    let _ = child.stdin.take().expect("piped").write_all(input);
    child.wait_with_output().expect("the program ends")
}

pub fn printed(program: &str, words: &[&str], input: &[u8]) -> Vec<u8> {
    ran(program, words, input).stdout
}

fn lines(text: &[u8]) -> Vec<&[u8]> {
    text.split_inclusive(|&b| b == b'\n').collect()
}

fn every_height() -> Tally {
    let heights: Vec<i16> = (i16::MIN..=i16::MAX).collect();
    let mut tally = Tally::new("profile, every height");
    for part in heights.chunks(SAMPLES) {
        let (port, own) = (printed("profile", &[], &bytes(part)), table(part));
        let (port, own) = (lines(&port), lines(own.as_bytes()));
        let as_long = port.len() == own.len() && port[0] == own[0];
        tally.told(0, (!as_long).then(|| format!("{}: heading or lines", part[0])));
        for (n, dm) in (1..).zip(part) {
            tally.count(port.get(n) == own.get(n), dm, port.get(n), own.get(n));
        }
    }
    tally
}

pub fn compare() -> Vec<Tally> {
    vec![stored(), every_height()]
}
