//! Scripts of trips: a sled's fixes, and steps in between, over caches of every size, with reads
//! that miss or pass the end at every rate, fixes while work is under way, losses and resets.
use super::script::*;
use super::sled::Sled;
use super::{Case, Writer, packs};
use crate::cache::script::Ending;
use crate::matching::script::key_word;
use crate::random::{Random, pick};
use crate::tally::Tally;
use oracle_angles::cache::{Cache, PAGE_BYTES};
use oracle_angles::pack::TileKey;

/// How the host of an engine goes about it.
pub struct Host {
    /// Steps with fetch and delivery (0), over the whole pack (1), or either (2).
    whole: u64,
    /// One read in so many is missed, or passes the end; none with 0.
    misses: u64,
    pasts: u64,
    /// One time in so many there is a call out of the ordinary.
    odd: u64,
    /// Steps for each fix, at most.
    patience: u64,
    pub now: u64,
}

/// Kinds of no record.
const NO_KINDS: [u32; 5] = [8, 15, 19, 62, u32::MAX];

/// A key that is ready or missing, if there is one.
fn settled(cache: &Cache, random: &mut Random) -> Option<TileKey> {
    let ready = cache.slots[..cache.count].iter().filter(|slot| slot.ready).map(|slot| slot.key);
    let keys: Vec<TileKey> = ready.chain(cache.missing).flatten().collect();
    (!keys.is_empty()).then(|| pick(&keys, random))
}

fn one_in(random: &mut Random, n: u64) -> bool {
    n > 0 && random.below(n) == 0
}

impl Host {
    pub fn new(random: &mut Random) -> Self {
        let now = pick(&[0, 5, 100_000, (1 << 32) - 9_000, u64::MAX - 90_000], random);
        Self {
            whole: pick(&[0, 0, 1, 2], random),
            misses: pick(&[0, 0, 0, 0, 40, 10, 3, 2, 1], random),
            pasts: pick(&[0, 0, 0, 0, 0, 60, 10, 3, 1], random),
            odd: pick(&[8, 25, 100], random),
            patience: pick(&[1, 4, 60, 120, 120, 120], random),
            now,
        }
    }

    /// No reads fail and nothing is out of the ordinary.
    pub fn calm(now: u64) -> Self {
        Self { whole: 0, misses: 0, pasts: 0, odd: 0, patience: 400, now }
    }

    fn how(&self, random: &mut Random) -> u32 {
        if one_in(random, self.misses) {
            return MISSED;
        }
        if one_in(random, self.pasts) { PAST } else { BYTES }
    }

    /// A delivery that is refused.
    fn refused(&self, writer: &mut Writer, random: &mut Random) -> Ending {
        let whole = writer.oracle.open.is_some_and(|read| writer.oracle.has(read));
        let how = if whole { pick(&[SHORT, UNKNOWN], random) } else { UNKNOWN };
        writer.put(DELIVER, &[how])
    }

    /// While a fetch is open: the step again, deliveries that don't fit, other fixes or none, and
    /// calls that end it.
    fn waiting(&self, writer: &mut Writer, random: &mut Random) {
        match random.below(20) {
            0..4 => writer.put(STEP, &[]),
            4..7 => self.refused(writer, random),
            7..12 => self.direct(writer, random),
            12 => writer.put(LOST, &[]),
            13..16 => self.moved(writer, random),
            16 => self.far_fix(writer, random),
            17 => writer.put(STEP_FROM, &[]),
            18 => pick(&[Self::reset, Self::renew], random)(self, writer, random),
            _ => writer.put(pick(&NO_KINDS, random), &[]),
        };
    }

    /// A fix some metres from the last, or at its place.
    fn moved(&self, writer: &mut Writer, random: &mut Random) -> Ending {
        let Some(fix) = writer.oracle.engine.fix else {
            return writer.put(LOST, &[]);
        };
        let far = pick(&[0, 60, 200, 200, 2_000], random);
        let mut near = |n: i32| (n + random.within(far)).clamp(-360_000_000, 360_000_000);
        let point = (near(fix.lat), near(fix.lon));
        writer.fix(point, self.now.wrapping_add(500))
    }

    /// A call on the cache, where it can be foreseen.
    fn direct(&self, writer: &mut Writer, random: &mut Random) -> Ending {
        if !writer.oracle.is_direct() {
            return writer.put(CLEAR, &[]);
        }
        let Some(h) = writer.oracle.engine.header() else {
            return writer.put(pick(&[CLEAR, GET, LOAD_FROM], random), &[]);
        };
        let [row, col] = [h.rows, h.cols].map(|n| random.below(u64::from(n)) as u32);
        let outside = pick(&[u32::from(h.rows) << 16 | col, row << 16 | 0xffff, u32::MAX], random);
        let any = row << 16 | col;
        let needed = writer.oracle.engine.need.map_or(any, key_word);
        let settled = settled(&writer.oracle.engine.cache, random).map_or(any, key_word);
        let key = pick(&[any, any, needed, needed, settled, settled, outside], random);
        match random.below(12) {
            0..4 => writer.put(GET, &[key]),
            11 => writer.put(CLEAR, &[]),
            _ => {
                (0..random.below(4)).for_each(|_| {
                    writer.put(LOAD_FROM, &[key]);
                });
                writer.put(LOAD_FROM, &[key])
            }
        }
    }

    /// One step, in one of its forms.
    fn step(&self, writer: &mut Writer, random: &mut Random) -> Ending {
        if self.whole == 1 || self.whole == 2 && random.below(2) == 0 {
            return writer.put(STEP_FROM, &[]);
        }
        let ending = writer.put(STEP, &[]);
        if ending[0] != FETCH {
            return ending;
        }
        while one_in(random, self.odd) {
            self.waiting(writer, random);
        }
        if writer.oracle.open.is_none() {
            return [WORKING, 0, 0, 0];
        }
        writer.put(DELIVER, &[self.how(random)])
    }

    /// Calls between steps.
    fn between(&self, writer: &mut Writer, random: &mut Random) {
        match random.below(16) {
            0 => writer.put(LOST, &[]),
            1 | 2 => self.reset(writer, random),
            3 => self.refused(writer, random),
            4 => writer.put(DELIVER, &[pick(&[BYTES, MISSED, PAST], random)]),
            5 => self.renew(writer, random),
            6 => self.far_fix(writer, random),
            7 => writer.put(pick(&NO_KINDS, random), &[]),
            8 => self.set(writer, random),
            _ => self.direct(writer, random),
        };
    }

    /// A count of any value, one of a page or of a kind that is not there too.
    fn set(&self, writer: &mut Writer, random: &mut Random) -> Ending {
        let now = writer.oracle.engine.cache.clock.get();
        let some = pick(&[0, 1, now, now.wrapping_add(1), u32::MAX, random.bits()], random);
        let page = pick(&[0, 1, 2, 3, 95, 96, u32::MAX], random);
        let which = pick(&[CLOCK, USED, USED, USED, LOADS, STEPS, GENERATION, 5, u32::MAX], random);
        writer.put(SET, &[which, some, page])
    }

    /// A fix that is refused.
    fn far_fix(&self, writer: &mut Writer, random: &mut Random) -> Ending {
        let far = pick(&[360_000_001, -360_000_001, i32::MAX, i32::MIN], random);
        let near = random.within(360_000_000);
        writer.fix(pick(&[(far, near), (near, far), (far, far)], random), self.now)
    }

    fn reset(&self, writer: &mut Writer, random: &mut Random) -> Ending {
        writer.put(RESET, &[pick(&[0, 0, 0, 0, 1, 2, 3], random)])
    }

    fn renew(&self, writer: &mut Writer, random: &mut Random) -> Ending {
        let most = writer.oracle.pages() as u64;
        let pages = pick(&[most, most, random.below(most + 1), most + 3, 0], random);
        let some = (random.below(12_000) as f32).to_bits();
        let odd = [0, 1 << 31, 0x7f80_0000, 0xff80_0000, 0x7fc0_0000, 0xbf80_0000];
        let horizon = pick(&[some, some, 0x461c_4000, pick(&odd, random), random.bits()], random);
        writer.put(NEW, &[pages as u32, horizon])
    }

    /// A fix, and steps after it.
    pub fn ride(&self, writer: &mut Writer, random: &mut Random, point: (i32, i32)) {
        writer.fix(point, self.now);
        for _ in 0..self.patience {
            let ending = self.step(writer, random);
            if one_in(random, self.odd) {
                self.between(writer, random);
            }
            if ending[0] == NO_PACK && random.below(3) == 0 {
                self.reset(writer, random);
            }
            if ending[0] != WORKING {
                break;
            }
        }
    }
}

/// The fixes of one host, as long as there are fewer records than `most`; then a loss or a reset,
/// at times.
fn tour(sled: &Sled, writer: &mut Writer, random: &mut Random, most: usize) {
    let mut host = Host::new(random);
    let fixes = sled.fixes(random, 60).into_iter().take(1 + random.below(60) as usize);
    for fix in fixes {
        let is_back = random.below(60) == 0;
        let after = if is_back { 3_000_u64.wrapping_neg() } else { fix.after };
        host.now = host.now.wrapping_add(after);
        host.ride(writer, random, sled.point(fix.place));
        if writer.script.len() >= most {
            return;
        }
    }
    if random.below(3) == 0 {
        writer.put(LOST, &[]);
        host.ride(writer, random, sled.point((0, 0, 0)));
    }
    if writer.last(PHASE) == 2 || random.below(4) == 0 {
        host.reset(writer, random);
    }
}

/// Counts as after a long time: the clock shortly before 2^32, and the others at times.
pub fn aged(writer: &mut Writer, random: &mut Random) {
    let within = pick(&[4, 40, 400], random);
    writer.wind(u32::MAX - random.below(within) as u32);
    for which in [LOADS, STEPS, GENERATION] {
        if random.below(2) == 0 {
            writer.put(SET, &[which, u32::MAX - random.below(6) as u32]);
        }
    }
}

/// A script of about so many records on one network.
pub fn case(sled: &Sled, packs: Vec<Vec<u8>>, arena: Vec<u8>, most: usize, seed: u64) -> Case {
    let random = &mut Random(seed);
    Case::new(packs, arena, |writer| {
        while writer.script.len() < most {
            if random.below(3) == 0 {
                aged(writer, random);
            }
            tour(sled, writer, random, most);
        }
    })
}

/// The arena's pages: most often few, as each answer sums the arena.
pub fn pages(random: &mut Random) -> usize {
    let few = random.below(8) as usize;
    let any = random.below(97) as usize;
    let many = if random.below(8) == 0 { any } else { few };
    pick(&[0, 1, 1, 2, 2, 3, 4, 5, 6, 6, 8, 12, 13, 14, 16, few, few, many], random)
}

pub fn compare(tally: &mut Tally, random: &mut Random) {
    let network = packs::network(random);
    let sled = Sled::new(&network);
    for _ in 0..3 {
        let pages = pages(random);
        let most = if pages > 24 { 80 } else { 260 };
        let arena = vec![random.next() as u8; pages * PAGE_BYTES + random.below(3) as usize];
        case(&sled, packs::of(&network, random), arena, most, random.next()).count(tally, "trip");
    }
}
