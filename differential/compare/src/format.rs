//! Header, grid, tiles and whole packs against the original.
use crate::expected::{self as rust, Grid, View};
use crate::ffi_format as port;
use crate::packs::{self, LIMIT, RULES, SPOILT, seal, seal_sector, sector, words};
use crate::random::{Random, pick};
use crate::{Scale, tally::Tally};
use oracle::cache::MAX_TILE_BYTES;
use oracle::pack::Header;
use oracle::tile::{Edge, Tile};

/// Past every count, one with low bits that are not.
const FAR: [u32; 1] = [65_535];

fn count_sector(tally: &mut Tally, sector: &[u8; 512]) {
    tally.same(sector, both!(header_parse; sector));
}

/// Every field at the limits of all rules and beside them, data and total as they were and as the
/// other fields then want them, which may take more than their bits.
fn header_limits(tally: &mut Tally, random: &mut Random) {
    let h = packs::header(random);
    let end = |tiles: u16| (LIMIT - i32::from(tiles) * h.tile as i32) as u32;
    let (limit, most) = (LIMIT as u32, 2 * LIMIT as u32 / h.tile);
    let fields = [h.directory, h.data, h.total, most, end(h.rows), end(h.cols)];
    let limits = [0, 1 << 15, 1 << 16, 1 << 31, limit, limit.wrapping_neg()];
    for limit in
        fields.into_iter().chain(limits).flat_map(|n| [n.wrapping_sub(1), n, n.wrapping_add(1)])
    {
        for field in 0..13 {
            let mut words = words(&h);
            words[field] = limit;
            count_sector(tally, &sector(&words));
            let [rows, cols] = [words[3], words[4]].map(|n| u64::from(n as u16));
            words[6] = (u64::from(words[5]) + 8 * rows * cols) as u32;
            words[7] = words[6].max(words[7]);
            count_sector(tally, &sector(&words));
        }
    }
}

/// One bit changed, and then the CRC repaired.
fn header_flip(tally: &mut Tally, n: u64) {
    let (header, bit) = (packs::header(&mut Random(n / 4_096)), n as usize % 4_096);
    let mut sector = sector(&words(&header));
    sector[bit / 8] ^= 1 << (bit % 8);
    tally.same(sector, ("flipped", port::header_parse(&sector), Err(4)));
    seal_sector(&mut sector);
    count_sector(tally, &sector);
}

/// Any bytes from some field on, or from the first.
fn header_random(tally: &mut Tally, random: &mut Random) {
    let mut sector = sector(&words(&packs::header(random)));
    let from = pick(&[0, 16, 20, 44, 48, 68], random);
    sector[from..508].copy_from_slice(&random.bytes(508 - from));
    count_sector(tally, &sector);
    seal_sector(&mut sector);
    count_sector(tally, &sector);
}

/// Good, or one time in three breaking a rule; with stray bits where none count.
fn grid(random: &mut Random) -> Grid {
    let header = match random.below(3 * RULES) {
        rule @ 0..RULES => packs::broken(random, rule),
        _ => packs::header(random),
    };
    Grid::of(header, random.bits())
}

/// At or beside an edge of tiles, an end of the grid, of what is allowed or of the type.
fn place(random: &mut Random, from: i32, tiles: u16, size: u32) -> i32 {
    let edge = i64::from(from) + line(random, tiles).clamp(0, 65_535) * i64::from(size);
    let ends = [-LIMIT, LIMIT, i32::MIN, i32::MAX, random.within(LIMIT)].map(i64::from);
    let at = pick(&[edge, edge, pick(&ends, random)], random) + random.between(-1, 1);
    at.clamp(i32::MIN.into(), i32::MAX.into()) as i32
}

pub fn point(random: &mut Random, h: &Header) -> (i32, i32) {
    (place(random, h.south, h.rows, h.tile), place(random, h.west, h.cols, h.tile))
}

/// A row or a column in the grid, at its end or far from it.
pub fn line(random: &mut Random, tiles: u16) -> i64 {
    let (tiles, some) = (i64::from(tiles), random.between(0, tiles.into()));
    let far = [65_535, 65_536, i64::MIN, i64::MAX, random.next() as i64];
    pick(&[-1, 0, 1, tiles - 1, tiles, some, some, pick(&far, random)], random)
}

/// An entry with its tile between data and total, at their ends, past them, or empty.
pub fn entry(random: &mut Random, h: &Header) -> [u8; 8] {
    let some = random.between(h.data.into(), h.data.max(h.total).into()) as u32;
    let offset = pick(&[h.data, h.data.wrapping_sub(1), h.total, 0, u32::MAX, some], random);
    let room = h.total.wrapping_sub(offset);
    let some = random.between(0, room.into()) as u32;
    let lengths = [0, 1, room, room.wrapping_add(1), u32::MAX, offset.wrapping_neg(), some];
    let length = pick(&lengths, random);
    (u64::from(length) << 32 | u64::from(offset)).to_le_bytes()
}

fn count_grid(tally: &mut Tally, random: &mut Random) {
    let g = &grid(random);
    let (h, w) = (&g.header, &g.words);
    for _ in 0..50 {
        let (lat, lon) = point(random, h);
        tally.same((h, lat, lon), both!(header_key, w, g, lat, lon));
        let (row, col) = (line(random, h.rows), line(random, h.cols));
        tally.same((h, row, col), both!(header_checked, w, g, row, col));
        let [row, col] = [row, col].map(|n| n as u16 as u32);
        tally.same((h, row, col), both!(header_origin, w, g, row, col));
        tally.same((h, row, col), both!(header_entry, w, g, row, col));
        let entry = &entry(random, h);
        tally.same((h, entry), both!(header_locate, w, g, entry));
    }
}

fn count_nodes(tally: &mut Tally, v: &View) {
    for index in (0..(v.nodes + 2).min(65_536)).chain(FAR) {
        tally.same((index, v.bytes), both!(tile_node, v.bytes, v, index));
        tally.same((index, v.bytes), both!(tile_incident, v.bytes, v, index));
        // The entries of the range are those that the Rust hands out.
        if let Ok([start, end]) = rust::tile_incident(v, index) {
            let port = (start..end).map(|entry| port::tile_entry(v.bytes, entry));
            let rust = v.tile.incident(index as u16);
            let alike = port.eq(rust.map(|(edge, ends)| Ok([edge.into(), ends.into()])));
            tally.count(alike, (index, v.bytes), "other entries", start..end);
        }
    }
    for entry in (0..2 * v.edges + 2).chain([2 * 65_535, u32::MAX]) {
        tally.same((entry, v.bytes), both!(tile_entry, v.bytes, v, entry));
    }
}

fn count_point(tally: &mut Tally, stray: u32, v: &View, g: &Grid, edge: &Edge, index: usize) {
    let words = &packs::edge_words(edge, stray);
    let (port, rust) = (port::tile_point(v.bytes, words, index), rust::tile_point(v, edge, index));
    tally.same((edge, index, v.bytes), ("tile_point", port, rust));
    let port = port::edge_point(&g.words, v.bytes, words, index);
    let rust = rust::edge_point(g, v, edge, index);
    tally.same((edge, index, &g.header, v.bytes), ("edge_point", port, rust));
}

/// Every point of every edge, some past its end, and points of edges that aren't the tile's.
fn count_edges(tally: &mut Tally, random: &mut Random, v: &View, g: &Grid) {
    for index in (0..(v.edges + 2).min(65_536)).chain(FAR) {
        tally.same((index, v.bytes), both!(tile_edge, v.bytes, v, index));
    }
    let stray = random.bits();
    for edge in (0..v.edges).map(|index| v.tile.edge(index as u16)) {
        let points = Tile::points(&edge);
        for index in (0..points + 2).chain([points + 65_536, 1 << 32, usize::MAX]) {
            count_point(tally, stray, v, g, &edge, index);
        }
    }
    let (nodes, last) = (v.nodes as u16, (v.nodes as u16).wrapping_sub(1));
    for _ in 0..16 {
        let [from, to] = [0; 2].map(|_| pick(&[0, last, nodes, 65_535], random));
        let firsts = [0, v.vertices, v.vertices.wrapping_sub(1), 1 << 31, u32::MAX];
        let (first_vertex, vertices) = (pick(&firsts, random), pick(&[0, 1, 2, 65_535], random));
        let edge = Edge { from, to, first_vertex, vertices, class: 1, flags: 2, group: 3 };
        let index = pick(&[0, 1, 2, 65_535, 65_536, 1 << 32, usize::MAX], random);
        count_point(tally, stray, v, g, &edge, index);
    }
}

/// At every node and beside it.
fn count_search(tally: &mut Tally, v: &View) {
    for node in (0..v.nodes).map(|index| v.tile.node(index as u16)) {
        for (right, up) in [(0, 0), (0, 1), (1, 0), (0, -1), (-1, 0)] {
            let x = u32::from(node.x.wrapping_add_signed(right));
            let y = u32::from(node.y.wrapping_add_signed(up));
            tally.same((x, y, v.bytes), both!(tile_node_at, v.bytes, v, x, y));
        }
    }
}

fn count_parse<'a>(
    tally: &mut Tally,
    bytes: &'a [u8],
    key: [u32; 2],
    size: u32,
) -> Option<View<'a>> {
    let view = View::of(bytes, key[0], key[1], size);
    let rust = view.as_ref().map(View::words).map_err(|number| *number);
    let port = port::tile_parse(bytes, key[0], key[1], size);
    tally.same((key, size, bytes), ("tile_parse", port, rust));
    view.ok()
}

/// A tile, and where it is accepted every reader at every index.
fn count_tile(
    tally: &mut Tally,
    random: &mut Random,
    g: &Grid,
    bytes: &[u8],
    key: [u32; 2],
    size: u32,
) {
    if let Some(view) = count_parse(tally, bytes, key, size) {
        count_nodes(tally, &view);
        count_edges(tally, random, &view, g);
        count_search(tally, &view);
    }
}

/// Sizes about the largest place of a node and the ends of the type; keys beside the tile's.
fn sizes_and_keys(tally: &mut Tally, random: &mut Random) {
    let len = pick(&[32, 100, 200, 1_000, 2_048, 20_000, MAX_TILE_BYTES], random);
    let (plain, size) = packs::lone(random, len);
    let (bytes, key @ [row, col]) = (plain.bytes(), plain.key());
    let most = plain.nodes.iter().map(|node| u32::from(node.x.max(node.y))).max().unwrap_or(0);
    for size in [0, 1, most.wrapping_sub(1), most, size, 65_535, 65_536, u32::MAX] {
        count_parse(tally, &bytes, key, size);
    }
    for key in [[row ^ 1, col], [row, col ^ 1], [row ^ 256, col], [col, row]] {
        count_parse(tally, &bytes, key, size);
    }
}

/// Nodes out of order: the Rust takes them, the port answers 4. In order they are accepted.
fn unordered(tally: &mut Tally, random: &mut Random) {
    let (mut plain, size) = packs::unordered(random);
    let (bytes, key @ [row, col]) = (plain.bytes(), plain.key());
    let taken = Tile::parse(&bytes, plain.key, size).is_ok();
    tally.count(taken, (key, size, &bytes), "the Rust refuses it", "");
    let port = port::tile_parse(&bytes, row, col, size);
    tally.same((key, size, &bytes), ("tile_parse", port, Err(4)));
    plain.sort();
    let view = count_parse(tally, &plain.bytes(), key, size).is_some();
    tally.count(view, (key, size, plain.bytes()), "refused in order", "");
}

/// A field at its limit or one past it.
fn tile_limits(tally: &mut Tally, random: &mut Random, n: u64) {
    let ((plain, size), g) = (packs::small(random), grid(random));
    let bytes = packs::spoilt(random, &plain, size, n % SPOILT);
    count_tile(tally, random, &g, &bytes, plain.key(), size);
}

/// Every length to the tile's own and a little past it, without and with the CRC repaired.
fn truncated(tally: &mut Tally, random: &mut Random) {
    let (plain, size) = packs::small(random);
    let whole = [plain.bytes(), random.bytes(8)].concat();
    for len in 0..=whole.len() {
        let mut bytes = whole[..len].to_vec();
        count_parse(tally, &bytes, plain.key(), size);
        seal(&mut bytes);
        count_parse(tally, &bytes, plain.key(), size);
    }
}

fn bit_flips(tally: &mut Tally, random: &mut Random) {
    let ((plain, size), g) = (packs::small(random), grid(random));
    let (whole, key @ [row, col]) = (plain.bytes(), plain.key());
    for bit in 0..8 * whole.len() {
        let mut bytes = whole.clone();
        bytes[bit / 8] ^= 1 << (bit % 8);
        tally.same((bit, &whole), ("flipped", port::tile_parse(&bytes, row, col, size), Err(4)));
        seal(&mut bytes);
        count_tile(tally, random, &g, &bytes, key, size);
    }
}

/// Tiles of all lengths to the largest that a cache holds; the first has as many nodes and edges as
/// their fields can count.
fn readers(tally: &mut Tally, random: &mut Random, n: u64) {
    let most = 1 << random.between(5, 12);
    let len = if n % 64 == 1 { MAX_TILE_BYTES } else { random.below(most) as usize };
    let (mut plain, size) = if n == 0 { packs::small(random) } else { packs::lone(random, len) };
    if n == 0 {
        plain.nodes.resize(65_535, plain.nodes[plain.nodes.len() - 1]);
        plain.edges.resize(65_535, plain.edges[0]);
        plain.link();
    }
    let g = grid(random);
    count_tile(tally, random, &g, &plain.bytes(), plain.key(), size);
}

/// Bytes that are no tile, between zeros and between ones: each pattern has an answer, and it rests
/// on the slice alone.
fn any_bytes(tally: &mut Tally, random: &mut Random) {
    let (len, tile) = (random.below(70) as usize, packs::small(random).0.bytes());
    let bytes = if random.below(2) == 0 { random.bytes(len) } else { tile[..len].to_vec() };
    let mut index = || pick(&[0, 1, 2, 3, random.bits() >> 16], random);
    let (i, j, edge) = (index(), index(), &[0; 7].map(|_| index()));
    let g = grid(random);
    let answers = |fill| {
        let around = [&[fill; 64][..], &bytes, &[fill; 64]].concat();
        let bytes = &around[64..64 + len];
        let (node, found) = (port::tile_node(bytes, i), port::tile_node_at(bytes, i, j));
        let point = port::tile_point(bytes, edge, i as usize);
        let on_map = port::edge_point(&g.words, bytes, edge, i as usize);
        let pairs = [port::tile_incident(bytes, i), port::tile_entry(bytes, i)];
        ([node, point, on_map], pairs, port::tile_edge(bytes, i), found)
    };
    let (zeros, ones) = (answers(0), answers(255));
    let numbers = zeros.0.map(Result::err).into_iter().chain(zeros.1.map(Result::err));
    let known = numbers.flatten().all(|number| [7, 9, 12].contains(&number));
    tally.count(known && zeros == ones, (i, j, edge, &bytes), zeros, ones);
}

fn pack_read(tally: &mut Tally, random: &mut Random) {
    let pack = &[7; 64][..random.below(65) as usize];
    let (end, some) = (pack.len() as u64, random.below(65));
    let offset = pick(&[0, end, some, some, u64::MAX, random.next()], random);
    let offset = offset.wrapping_add(random.below(3)).wrapping_sub(1);
    let room = end.wrapping_sub(offset);
    let lengths = [0, 1, room, room.wrapping_add(1), offset.wrapping_neg(), u64::MAX, some];
    let len = pick(&lengths, random) as usize;
    tally.same((end, offset, len), both!(pack_read; pack, offset, len));
}

/// A pack from its first sector to each tile's records, as an engine reads it.
fn whole_pack(tally: &mut Tally, random: &mut Random) {
    let packs::Pack { header, tiles, bytes } = packs::pack(random);
    let (g, size) = (&Grid::of(header, random.bits()), header.tile);
    let first = bytes[..512].try_into().expect("512 bytes");
    tally.same(header, ("header_parse", port::header_parse(first), Ok(words(&header))));
    for (n, plain) in tiles.iter().enumerate() {
        let [row, col] = [n / header.cols as usize, n % header.cols as usize].map(|n| n as u32);
        let answers = both!(header_entry, &g.words, g, row, col);
        tally.same((header, row, col), answers);
        let at = answers.2.map_or(0, |[low, _]| low as usize);
        let entry = bytes[at..at + 8].try_into().expect("8 bytes");
        let answers = both!(header_locate, &g.words, g, entry);
        tally.same((header, entry), answers);
        let bytes = answers.2.map_or(&[][..], |[at, len]| &bytes[at as usize..][..len as usize]);
        tally.count(bytes == plain.as_ref().map_or(vec![], packs::Plain::bytes), n, bytes, "tile");
        count_tile(tally, random, g, bytes, [row, col], size);
        // Where nodes of all tiles stand, or would on the other side of an edge.
        let Ok(v) = &View::of(bytes, row, col, size) else { continue };
        for node in tiles.iter().flatten().flat_map(|plain| &plain.nodes) {
            let (x, y) = (u32::from(node.x), u32::from(node.y));
            for (x, y) in [(x, y), (size - x, y), (x, size - y), (size - x, size - y)] {
                tally.same((x, y, bytes), both!(tile_node_at, bytes, v, x, y));
            }
        }
    }
}

pub fn compare(scale: &Scale) -> Vec<Tally> {
    let n = scale.packs;
    let over = |name, times, count: fn(&mut Tally, &mut Random, u64)| {
        Tally::over(name, scale, times, count)
    };
    vec![
        over("pack_read", 1_000 * n, |tally, random, _| pack_read(tally, random)),
        over("header parse, good", 100 * n, |tally, random, _| {
            count_sector(tally, &sector(&words(&packs::header(random))));
        }),
        over("header parse, limits", n / 8, |tally, random, _| header_limits(tally, random)),
        over("header parse, bit flips", 64 * n, |tally, _, n| header_flip(tally, n)),
        over("header parse, random", 50 * n, |tally, random, _| header_random(tally, random)),
        over("grid", 20 * n, |tally, random, _| count_grid(tally, random)),
        over("tile parse, sizes, keys", n, |tally, random, _| sizes_and_keys(tally, random)),
        over("tile parse, limits", n * SPOILT, tile_limits),
        over("tile parse, truncated", n, |tally, random, _| truncated(tally, random)),
        over("tile parse, bit flips", n / 8, |tally, random, _| bit_flips(tally, random)),
        over("tile parse, unordered", 8 * n, |tally, random, _| unordered(tally, random)),
        over("tile readers", 8 * n, readers),
        over("tile readers, any bytes", 100 * n, |tally, random, _| any_bytes(tally, random)),
        over("whole packs", n / 2, |tally, random, _| whole_pack(tally, random)),
    ]
}
