//! The printed profile page: what it has to say, by its columns, with doubles for the rise and the
//! bar counted mark by mark. The stored outputs of `profile_page` and `page_cases` are held to it,
//! and the program itself on roads of every length.
use crate::Scale;
use crate::ffi;
use crate::profile::{ROOT, SAMPLES, bytes, printed};
use crate::random::{Random, pick};
use crate::tally::Tally;
use std::fs;

const LINES: usize = 50;
const BAR: i64 = 25;

fn line(ahead: &str, rise: &str, bar: &str) -> String {
    format!("{ahead:>6}{rise:>9}{bar:<25}\n")
}

/// A mark for each twenty-fifth of the range that the height reaches.
fn bar(dm: i16, low: i64, high: i64) -> String {
    let reached = |mark: &i64| high > low && mark * (high - low) <= BAR * (i64::from(dm) - low);
    "#".repeat((1..=BAR).filter(reached).count())
}

fn page(samples: &[i16], p: usize) -> String {
    let low = samples.iter().copied().min().unwrap_or(0).into();
    let high = samples.iter().copied().max().unwrap_or(0).into();
    let rows = samples.iter().enumerate().skip(p.saturating_mul(LINES)).take(LINES);
    let rows = rows.map(|(n, &dm)| {
        let rise = format!("{:+.1}", f64::from(dm) / 10.0);
        line(&(20 * n).to_string(), &rise, &bar(dm, low, high))
    });
    [line("ahead", "rise", "")].into_iter().chain(rows).collect()
}

/// Every page that has a sample, or page 0; a form feed between two.
fn pages(samples: &[i16]) -> String {
    let count = samples.len().div_ceil(LINES).max(1);
    (0..count).map(|p| page(samples, p)).collect::<Vec<_>>().join("\x0c")
}

/// What the program prints.
fn text(input: &[u8], words: &[&str]) -> String {
    let number = |word: &str| !word.is_empty() && word.bytes().all(|b| b.is_ascii_digit());
    let bad = input.len() % 2 == 1 || input.len() > 2 * SAMPLES || words.len() > 1;
    if bad || !words.iter().all(|word| number(word)) {
        return "bad input\n".into();
    }
    let samples: Vec<i16> =
        input.chunks(2).map(|pair| i16::from_le_bytes([pair[0], pair[1]])).collect();
    // A number that is too large for the machine lies past every page.
    let named = words.first().map(|word| word.parse().unwrap_or(usize::MAX));
    named.map_or_else(|| pages(&samples), |p| page(&samples, p))
}

/// What the program `page_cases` prints.
fn cases_text() -> String {
    let uneven: Vec<i16> = (0..SAMPLES as i32 + 1).map(|n| (1_237 * n) as i16).collect();
    let of = |count: usize, p: usize| page(&uneven[..count], p);
    let ends = [i16::MIN, i16::MAX, 0, -1];
    let roads: String = (0..12).map(|p| of(SAMPLES, p)).collect();
    let few = [of(0, 0), of(50, 0), of(50, 1), of(51, 0), of(51, 1), of(SAMPLES, 4_294_967_295)];
    let last = [page(&[7; 3], 0), page(&ends, 0), page(&ends, 0)];
    let dashes = "-".repeat(204);
    roads + &few.concat() + "refused 12\n" + &last.concat() + "-----\nrefused 14\n" + &dashes + "\n"
}

/// Prints what `profile_page` prints for a file and a page, or without a file what `page_cases` does.
pub fn print(words: &[&str]) -> Vec<Tally> {
    let read = |name| fs::read(name).expect("the input can be read");
    let made = words.split_first().map(|(name, rest)| text(&read(name), rest));
    print!("{}", made.unwrap_or_else(cases_text));
    Vec::new()
}

fn stored() -> Tally {
    let read = |name: &str| fs::read(format!("{ROOT}/crates/{name}")).expect("a stored file");
    let page = text(&read("profile_page/stdin"), &[]);
    let mut tally = Tally::new("page, stored outputs");
    for (name, made) in [("profile_page/stdout", page), ("page_cases/stdout", cases_text())] {
        tally.count(read(name) == made.as_bytes(), name, read(name), made);
    }
    tally
}

/// Heights of a road: anywhere, near each other, all equal, or at both ends of 16 bits.
fn road(random: &mut Random, count: usize) -> Vec<i16> {
    let (kind, first) = (random.below(4), random.bits() as i16);
    let height = |random: &mut Random| match kind {
        0 => random.bits() as i16,
        1 => first.saturating_add(random.below(60) as i16),
        2 => first,
        _ => pick(&[i16::MIN, i16::MAX, 0, -1], random),
    };
    (0..count).map(|_| height(random)).collect()
}

fn argument(random: &mut Random) -> Vec<String> {
    match random.below(9) {
        0..4 => vec![],
        4..6 => vec![random.below(12).to_string()],
        6 => vec![random.bits().to_string()],
        7 => vec![pick(&["x", "-1", "", "1 ", "99999999999999999999", "007"], random).into()],
        _ => vec!["0".into(), "1".into()],
    }
}

fn one(tally: &mut Tally, random: &mut Random, n: u64) {
    let mut input = bytes(&road(random, n as usize % (SAMPLES + 2)));
    if random.below(40) == 0 {
        input.push(0);
    }
    let words = argument(random);
    let words: Vec<&str> = words.iter().map(String::as_str).collect();
    let (port, own) = (printed("profile_page", &words, &input), text(&input, &words));
    tally.count(port == own.as_bytes(), (&words, &input), &port, &own);
}

/// The length that is told where nothing was.
const UNTOLD: usize = 0;

/// The library's answer, its output and the length that it told; the output may be too short.
fn lent(tally: &mut Tally, random: &mut Random, n: u64) {
    let samples = road(random, n as usize % (SAMPLES + 2));
    let p = if random.below(4) == 0 { random.bits() } else { random.below(12) as u32 };
    let text = page(&samples, p as usize).into_bytes();
    let near = random.between(-2, 3) + text.len() as i64;
    let room = pick(&[text.len(), near as usize, random.below(2_200) as usize], random);
    let before = vec![random.bits() as u8; room];
    let mut after = before.clone();
    let ffi::Printed { number, length } = ffi::profile_page(&samples, p, &mut after);
    let own = if samples.len() > SAMPLES {
        (12, before, UNTOLD)
    } else if room < text.len() {
        (14, before, UNTOLD)
    } else {
        (0, [&text[..], &before[text.len()..]].concat(), text.len())
    };
    let port = (number, after, length);
    tally.count(port == own, (p, room, &samples), &port, &own);
    tally.end(("number", number));
}

pub fn compare(scale: &Scale) -> Vec<Tally> {
    let roads = Tally::over("page, roads", scale, scale.pages, one);
    let lent = Tally::over("page, lent outputs", scale, 100 * scale.pages, lent);
    vec![stored(), roads, lent]
}
