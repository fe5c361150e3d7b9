//! Roads for predictions to follow: trails in pieces with side roads, roundabouts, links, hairpins,
//! junctions of many arms, rings of many short edges, streets, forks, roads through corners.
use crate::matching::roads::{Grid, Place, Road};
use crate::random::{Random, pick};
use std::f64::consts::PI;

const ONEWAY: u8 = 1;
const LINK: u8 = 2;
const ROUNDABOUT: u8 = 8;

/// What edges of a road have in common.
#[derive(Clone, Copy)]
pub struct Kind {
    pub class: u8,
    pub flags: u8,
    pub group: u16,
}

/// How a road in pieces goes on.
pub struct Trail {
    pub kind: Kind,
    /// Metres and number of the pieces, and the most that each bends, in thousandths.
    pub step: f64,
    pub pieces: u64,
    pub bend: i32,
    /// One joint in so many has side roads; none with 0.
    pub sides: u64,
}

/// Roads under way.
pub struct Town<'r> {
    pub grid: Grid,
    pub random: &'r mut Random,
    pub roads: Vec<Road>,
}

impl Town<'_> {
    /// Anywhere on the grid, often at a corner or on a line between tiles.
    fn place(&mut self) -> Place {
        let z = pick(&[3_000, 3_000, 2_500, 10_000, 60_000, 0, u16::MAX], self.random);
        let size = u64::from(self.grid.size);
        let [x, y] =
            [self.grid.width(), self.grid.height()].map(|n| self.random.below(n as u64 + 1));
        let line = |n: u64| n / size * size;
        match self.random.below(8) {
            0 => (line(x) as i64, line(y) as i64, z),
            1 => (line(x) as i64, y as i64, z),
            2 => (x as i64, line(y) as i64, z),
            _ => (x as i64, y as i64, z),
        }
    }

    /// Any angle, often along an axis or a diagonal.
    fn angle(&mut self) -> f64 {
        let eighths = self.random.below(8) as f64 / 4.0;
        let any = self.random.below(10_000) as f64 / 5_000.0;
        pick(&[eighths, any, any], self.random) * PI
    }

    /// Mostly the classes of through roads; tracks, cycleways and paths; odd ones seldom.
    fn class(&mut self) -> u8 {
        let odd = self.random.next() as u8;
        pick(&[1, 2, 3, 3, 4, 5, 5, 6, 6, 7, 8, 8, 9, 10, odd], self.random)
    }

    fn kind(&mut self) -> Kind {
        let some = self.random.below(64) as u8;
        let flags = pick(&[0, 0, 0, 0, 0, ONEWAY, LINK, some], self.random);
        let group = pick(&[0, 1, 2, 3, self.random.bits() as u16], self.random);
        Kind { class: self.class(), flags, group }
    }

    pub fn add(&mut self, kind: Kind, mut places: Vec<Place>) {
        let Kind { class, flags, group } = kind;
        // A oneway against its direction ends a road.
        if self.random.below(if flags & ONEWAY == 0 { 3 } else { 40 }) == 0 {
            places.reverse();
        }
        self.roads.push(Road { places, class, flags, group });
    }

    pub fn ahead(&self, from: Place, metres: f64, angle: f64) -> Place {
        self.grid.beside(from, metres * angle.sin(), metres * angle.cos())
    }

    /// Moved, and higher or lower by what a road may rise.
    fn next(&mut self, from: Place, metres: f64, angle: f64) -> Place {
        let rise = (metres / 2.0).clamp(1.0, 3_000.0) as i32;
        let mut to = self.ahead(from, metres, angle);
        to.2 = to.2.saturating_add_signed(self.random.within(rise) as i16);
        to
    }

    /// One edge with up to three vertices inside.
    fn piece(&mut self, kind: Kind, from: Place, metres: f64, angle: f64) -> Place {
        let inside = self.random.below(4).saturating_sub(1);
        let mut places = vec![from];
        for _ in 0..inside {
            let at = places[places.len() - 1];
            let wide = angle + self.random.within(200) as f64 / 1_000.0;
            let next = self.next(at, metres / (inside + 1) as f64, wide);
            places.push(next);
        }
        let end = self.next(places[places.len() - 1], metres / (inside + 1) as f64, angle);
        places.push(end);
        self.add(kind, places);
        end
    }

    /// Roads that leave a joint, each in any direction.
    fn sides(&mut self, at: Place) {
        for _ in 0..1 + self.random.below(3) {
            let (kind, angle) = (self.kind(), self.angle());
            let metres = 5.0 + self.random.below(80) as f64;
            self.piece(kind, at, metres, angle);
        }
    }

    /// Where the trail ends, and the way that it then goes.
    pub fn trail(&mut self, from: Place, angle: f64, trail: &Trail) -> (Place, f64) {
        let (mut at, mut angle) = (from, angle);
        for _ in 0..trail.pieces {
            at = self.piece(trail.kind, at, trail.step, angle);
            angle += f64::from(self.random.within(trail.bend)) / 1_000.0;
            if trail.sides > 0 && self.random.below(trail.sides) == 0 {
                self.sides(at);
            }
        }
        (at, angle)
    }

    fn any_trail(&mut self) -> Trail {
        let step = pick(&[0.2, 3.0, 12.0, 12.0, 30.0, 80.0, 80.0, 400.0, 1_500.0], self.random);
        Trail {
            kind: self.kind(),
            step,
            pieces: 2 + self.random.below(30),
            bend: pick(&[0, 50, 200, 500, 3_000], self.random),
            sides: pick(&[0, 2, 4, 10], self.random),
        }
    }

    fn some_trail(&mut self) {
        let (from, angle, trail) = (self.place(), self.angle(), self.any_trail());
        self.trail(from, angle, &trail);
    }

    /// A short trail towards a place, so that a start has a way to it; it answers its direction.
    fn towards(&mut self, at: Place) -> f64 {
        let (angle, kind) = (self.angle(), self.kind());
        let kind = Kind { flags: 0, ..kind };
        let metres = 10.0 + self.random.below(60) as f64;
        let from = self.ahead(at, metres, angle + PI);
        let first = self.ahead(from, metres, angle + PI);
        self.add(kind, vec![first, from]);
        self.add(kind, vec![from, at]);
        angle
    }

    fn roundabout(&mut self) {
        let (at, nodes) = (self.place(), 3 + self.random.below(7));
        let radius = 6.0 + self.random.below(30) as f64;
        let kind = Kind { flags: ROUNDABOUT | ONEWAY, ..self.kind() };
        let turn = |n: u64| -2.0 * PI * (n % nodes) as f64 / nodes as f64;
        let first = self.angle();
        for n in 0..nodes {
            let [from, to] = [n, n + 1].map(|n| self.ahead(at, radius, first + turn(n)));
            self.roads.push(Road {
                places: vec![from, to],
                class: kind.class,
                flags: kind.flags,
                group: pick(&[0, kind.group], self.random),
            });
            if n == 0 || self.random.below(3) > 0 {
                let mut trail = self.any_trail();
                (trail.pieces, trail.step) = (1 + self.random.below(4), 25.0);
                trail.kind.flags &= !ONEWAY;
                self.trail(from, first + turn(n), &trail);
            }
        }
    }

    /// A road that goes on while others leave it: links, tracks, paths, cycleways, other names.
    fn choice(&mut self) {
        let at = self.place();
        let angle = self.towards(at);
        let road = self.roads[self.roads.len() - 1].clone();
        let same = Kind { class: road.class, flags: 0, group: road.group };
        self.piece(same, at, 60.0, angle);
        for _ in 0..1 + self.random.below(4) {
            let class = self.class();
            let flags = pick(&[0, LINK, LINK | ONEWAY], self.random);
            let group = pick(&[0, same.group, same.group + 1], self.random);
            let aside = angle + self.random.within(1_600) as f64 / 1_000.0;
            self.piece(Kind { class, flags, group }, at, 40.0, aside);
        }
    }

    /// Two ways on, to the left and to the right, that cost the same, or 1 apart but for rounding:
    /// five classes more major make 1.
    fn fork(&mut self) {
        let at = self.place();
        let (angle, kind) = (self.towards(at), self.kind());
        let class = pick(&[6, 7], self.random);
        self.roads.iter_mut().rev().take(2).for_each(|road| road.class = class);
        let classes = pick(&[[kind.class; 2], [class, class - 5], [class - 5, class]], self.random);
        let (aside, metres) = (self.random.below(1_500) as f64 / 1_000.0, self.metres());
        for (sign, class) in [-1.0, 1.0].into_iter().zip(classes) {
            let end = self.ahead(at, metres, angle + sign * aside);
            self.add(Kind { class, ..kind }, vec![at, end]);
        }
    }

    fn metres(&mut self) -> f64 {
        10.0 + self.random.below(90) as f64
    }

    /// More arms than are kept.
    fn star(&mut self) {
        let at = self.place();
        let (angle, arms) = (self.towards(at), 11 + self.random.below(12));
        let on = self.random.below(arms);
        for n in 0..arms {
            let mut kind = self.kind();
            kind.flags &= !ONEWAY;
            let aside = 0.9 + 4.4 * n as f64 / arms as f64;
            let aside = if n == on { 0.0 } else { aside };
            kind.class = if n == on { 1 } else { kind.class };
            self.piece(kind, at, 30.0, angle + aside);
        }
    }

    /// A ring of many short edges: about as many as are remembered as visited, or more.
    pub fn ring(&mut self) {
        let nodes = match self.random.below(2) {
            0 => 127 + self.random.below(3),
            _ => 100 + self.random.below(120),
        };
        let at = self.place();
        let metres = pick(&[1.0, 2.0, 4.0, 30.0], self.random);
        let radius = metres * nodes as f64 / (2.0 * PI);
        let kind = Kind { flags: pick(&[0, 0, ONEWAY], self.random), ..self.kind() };
        let turn = |n: u64| 2.0 * PI * (n % nodes) as f64 / nodes as f64;
        for n in 0..nodes {
            let [from, to] = [n, n + 1].map(|n| self.ahead(at, radius, turn(n)));
            let (class, flags, group) = (kind.class, kind.flags, kind.group);
            self.roads.push(Road { places: vec![from, to], class, flags, group });
        }
        if self.random.below(2) == 0 {
            let spur = self.ahead(at, radius, 0.0);
            self.sides(spur);
        }
    }

    fn hairpins(&mut self) {
        let (mut at, mut angle, kind) = (self.place(), self.angle(), self.kind());
        let metres = pick(&[15.0, 40.0, 150.0], self.random);
        for n in 0..4 + self.random.below(10) {
            at = self.piece(kind, at, metres, angle);
            angle += if n % 2 == 0 { 3.0 } else { -3.0 };
            if self.random.below(4) == 0 {
                self.sides(at);
            }
        }
    }

    /// Streets as a net, each with its name and class.
    pub fn streets(&mut self, count: u64, apart: f64) {
        let from = self.place();
        let kinds: Vec<Kind> = (0..2 * count)
            .map(|n| {
                let kind = self.kind();
                Kind { group: pick(&[n as u16 + 10, kind.group], self.random), ..kind }
            })
            .collect();
        for (n, m) in (0..count).flat_map(|n| (0..count).map(move |m| (n, m))) {
            let at = self.grid.beside(from, apart * n as f64, apart * m as f64);
            let east = self.grid.beside(from, apart * (n + 1) as f64, apart * m as f64);
            let north = self.grid.beside(from, apart * n as f64, apart * (m + 1) as f64);
            self.add(kinds[m as usize], vec![at, east]);
            self.add(kinds[(count + n) as usize], vec![at, north]);
        }
    }

    /// Roads that meet in a corner of tiles, from each side of it.
    fn corner(&mut self) {
        let size = i64::from(self.grid.size);
        let [cols, rows] = [self.grid.cols, self.grid.rows].map(u64::from);
        let at = [cols, rows].map(|n| self.random.below(n + 1) as i64 * size);
        let at = (at[0], at[1], 3_000);
        let angle = self.towards(at);
        for _ in 0..1 + self.random.below(5) {
            let (kind, any) = (self.kind(), self.angle());
            let along = pick(&[angle, any, any], self.random);
            let end = self.piece(kind, at, 60.0, along);
            let trail = Trail { pieces: 2, ..self.any_trail() };
            self.trail(end, along, &trail);
        }
    }

    /// Edges that end where they begin: without length, and with.
    fn loops(&mut self) {
        let at = self.place();
        let (angle, kind) = (self.towards(at), self.kind());
        let across = self.ahead(at, 20.0, angle + 1.0);
        let on = self.ahead(at, 20.0, angle);
        match self.random.below(4) {
            0 => self.add(kind, vec![at, at]),
            1 => self.add(kind, vec![at, across, on, at]),
            2 => self.add(kind, vec![at, at, on]),
            _ => self.add(kind, vec![at, on, on]),
        }
        self.piece(kind, on, 30.0, angle);
    }

    pub fn any(&mut self) {
        match self.random.below(16) {
            0..4 => self.some_trail(),
            4 | 5 => self.roundabout(),
            6 | 7 => self.choice(),
            8 => self.fork(),
            9 => self.star(),
            10 => self.hairpins(),
            11 => {
                let count = 2 + self.random.below(4);
                let apart = (15 + self.random.below(80)) as f64;
                self.streets(count, apart);
            }
            12 | 13 => self.corner(),
            14 => self.loops(),
            _ => self.ring(),
        }
    }
}
