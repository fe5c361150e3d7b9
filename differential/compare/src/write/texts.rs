//! Texts that can't be made into a pack: what `write_pack` says of them has to be the line and the
//! number of the account, on standard error alone.
use super::account;
use crate::profile::ran;
use crate::random::{Random, pick};
use crate::tally::Tally;

/// What is met in every run.
const CAUSES: [(&str, u32); 18] = [
    ("no grid", 0),
    ("no grid at the end", 0),
    ("tile before the grid", 0),
    ("second grid", 0),
    ("record before a tile", 0),
    ("line of a grid", 0),
    ("line of a tile", 0),
    ("line of a record", 0),
    ("line too long", 0),
    ("13 of a grid", 13),
    ("13 of a tile", 13),
    ("13, more records than a tile has", 13),
    ("13 of a pack, key outside", 13),
    ("13 of a pack, key twice", 13),
    ("14, the tiles' bytes", 14),
    ("14, the tiles' count", 14),
    ("14 of a pack, the directory", 14),
    ("14 of a pack, with a tile", 14),
];

fn message((_, line, number): account::Refusal) -> String {
    match number {
        0 => format!("write_pack: line {line} can't be read\n"),
        _ => format!("write_pack: line {line}: refused with {number}\n"),
    }
}

/// One text: a pack and no message, or the message and no pack.
pub fn told(tally: &mut Tally, text: &str) {
    let made = ran("write_pack", &[], text.as_bytes());
    let refusal = account::refusal(text);
    let own = refusal.map_or(String::new(), message);
    let is_silent = made.stdout.is_empty() == refusal.is_some();
    let port = String::from_utf8_lossy(&made.stderr);
    tally.count(is_silent && port == own, (made.stdout.len(), text), &port, &own);
    tally.end(refusal.map_or(("made", 0), |(why, _, number)| (why, number)));
}

/// A word that no record may have there, or one at the end of what it may.
fn word(random: &mut Random) -> String {
    let words = ["x", "-", "-1", "--1", "+1", "1.5", "0x1", "0", "255", "256", "65535", "65536"];
    let long = ["4294967295", "4294967296", "2147483648", "-2147483648", "-2147483649"];
    let more = ["18446744073709551617", "000000000000000000000000000007", "node", "#", ""];
    let all = [&words[..], &long, &more].concat();
    pick(&all, random).into()
}

/// A line that may stand anywhere.
fn line(random: &mut Random) -> String {
    let lines = ["", " \t\r", "# a saddle", "grid 0 0 1 1 1", "tile 0 0 1", "node 1 1 1", "nod 1"];
    let more = ["tile 0 0", "vertex 1 1 1 1", "edge 0 0 0 0 0 0 0", "edge 0 1 0 0 1 0 0", " node"];
    let long = "#".repeat(4_094 + random.below(3) as usize);
    pick(&[&lines[..], &more, &[&long]].concat(), random).into()
}

/// A word of a line put differently.
fn reworded(line: &str, random: &mut Random) -> String {
    let mut words: Vec<String> = line.split(' ').map(Into::into).collect();
    let at = random.below(words.len() as u64) as usize;
    match random.below(5) {
        0 => words[at] = word(random),
        1 => words.insert(at, word(random)),
        2 => drop(words.remove(at)),
        3 => words.push(pick(&["\r", "\t ", "1"], random).into()),
        _ => {
            let by = i64::from(random.within(3));
            if let Ok(n) = words[at].parse::<i64>() {
                words[at] = (n + by).to_string();
            }
        }
    }
    words.join(pick(&[" ", " ", "  ", "\t"], random))
}

/// A tile told with another's key, or with one beside it.
fn rekeyed(lines: &mut [String], random: &mut Random) {
    let is_tile = |&n: &usize| lines[n].starts_with("tile ");
    let tiles: Vec<usize> = (0..lines.len()).filter(is_tile).collect();
    if tiles.is_empty() {
        return;
    }
    let (at, from) = (pick(&tiles, random), pick(&tiles, random));
    let more = random.below(2);
    let key: Vec<u64> = lines[from].split(' ').filter_map(|word| word.parse().ok()).collect();
    if let [row, col, lon_um] = key[..] {
        lines[at] = format!("tile {} {} {lon_um}", row + more, col + random.below(2) * more);
    }
}

/// One change of a text's lines.
fn changed(lines: &mut Vec<String>, random: &mut Random) {
    let count = lines.len() as u64;
    let (at, to) = (random.below(count) as usize, random.below(count) as usize);
    match random.below(12) {
        0 => drop(lines.remove(at)),
        1 => lines.insert(to, lines[at].clone()),
        2 => lines.swap(at, to),
        3 => lines.swap(at, (at + 1) % count as usize),
        4 => lines.insert(at, line(random)),
        5 => drop(lines.drain(..at)),
        6 | 7 => rekeyed(lines, random),
        _ => lines[at] = reworded(&lines[at], random),
    }
}

/// Some changes of a text that is good.
pub fn spoilt(tally: &mut Tally, random: &mut Random, text: &str) {
    let mut lines: Vec<String> = text.lines().map(Into::into).collect();
    for _ in 0..1 + random.below(2) {
        if !lines.is_empty() {
            changed(&mut lines, random);
        }
    }
    let end = pick(&["", "\n", "\n\n"], random);
    told(tally, &(lines.join("\n") + end));
}

/// Tiles in row order with so many nodes each.
fn tiles(rows: usize, cols: usize, count: usize, nodes: usize) -> String {
    let places: String =
        (0..nodes).map(|n| format!("node {} {} 2500\n", n % 1000, n / 1000)).collect();
    let tile = |n: usize| format!("tile {} {} 41023\n{places}", n / cols, n % cols);
    format!("grid 0 0 1000 {rows} {cols}\n") + &(0..count).map(tile).collect::<String>()
}

/// What no small change makes: the program's room, and the ends of it.
fn large() -> Vec<String> {
    // One tile more, with so many nodes: 1,276 fill the room of the tiles.
    let full = |nodes| tiles(9, 9, 64, 6_120) + "tile 8 8 41023\n" + &"node 0 0 0\n".repeat(nodes);
    let twice = tiles(500, 500, 41, 6_120);
    vec![
        tiles(1, 1, 1, 6_140),
        tiles(1, 1, 1, 6_141),
        tiles(129, 129, 16_384, 0),
        tiles(129, 129, 16_385, 0),
        tiles(9, 9, 65, 6_120),
        full(1_276),
        full(1_277),
        tiles(500, 500, 39, 6_120),
        tiles(500, 500, 40, 6_120),
        twice.clone() + "tile 0 0 41023\n",
        twice + "tile 500 0 41023\n",
        tiles(701, 701, 0, 0),
        tiles(702, 702, 0, 0),
        tiles(702, 702, 3, 1) + "node 0 0 0\n",
        tiles(65_535, 65_535, 2, 0),
    ]
}

/// The smallest texts of each cause, and at the line that is to blame.
fn small() -> Vec<String> {
    let texts = [
        "",
        "\n# nothing\n\n",
        "node 1 1 1\n",
        "\ntile 0 0 1\ngrid 0 0 1 1 1\n",
        "grid 0 0 1 1 1\ngrid 0 0 1 1 1\n",
        "grid 0 0 1 1 1\ntile 0 0 1\ngrid 0 0 1 1 1",
        "grid 0 0 1 1 1\n#\nvertex 1 1 1\n",
        "grid 0 0 0 1 1\nx\n",
        "grid 0 0 1 1\n",
        "grid 0 0 1 1 1\ntile 0 0\n",
        "grid 0 0 1 1 1\n\ntile 0 0 0\nnode 0 0 0\ntile 0 0 1\n",
        "grid 0 0 1 1 1\ntile 0 0 1\nnode 0 0 0\nedge 0 1 0 0 1 0 0\n",
        "grid 0 0 1 1 1\ntile 0 0 1\nnode 1 0 0\nnode 0 0 0\n\n",
        "grid 0 0 1 1 1\ntile 0 0 1\ntile 0 0 1\ntile 0 1 1\n",
        "grid 0 0 1 1 1\ntile 0 0 1\n\n\ntile 1 0 1\ntile 0 0 1\n",
        "grid 359999999 -360000000 1 1 1\n",
        "grid 360000000 -360000000 1 1 1\n",
    ];
    let long = [4_095, 4_096].map(|len| "#".repeat(len) + "\ngrid 0 0 1 1 1\n");
    texts.into_iter().map(Into::into).chain(long).collect()
}

/// The fixed texts, and whether every cause was met with those and the others.
pub fn fixed(tally: &mut Tally) {
    small().iter().chain(&large()).for_each(|text| told(tally, text));
}

pub fn met(tally: &mut Tally) {
    for cause in CAUSES {
        let missed = (!tally.ended(cause)).then(|| format!("{cause:?} was not met"));
        tally.told(1, missed);
    }
}
