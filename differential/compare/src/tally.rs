//! What was compared and what differed.
use crate::{Scale, random::Random};
use std::{collections::BTreeMap, fmt::Debug, thread, time::Instant};

#[derive(Default)]
pub struct Tally {
    name: String,
    compared: u64,
    differed: u64,
    /// The first difference in words.
    first: Option<String>,
    /// A difference is shown and fails nothing.
    pub shown_only: bool,
    /// For bearings, the most degrees from the Rust and from f64 atan2.
    most: [f64; 2],
    /// For scripts, how often each ending was met, and with which number.
    ended: BTreeMap<(&'static str, u32), u64>,
}

impl Tally {
    pub fn new(name: &str) -> Self {
        Self { name: name.into(), ..Self::default() }
    }

    /// One step for each of 0..total, split over threads that have a tally and random numbers of
    /// their own. Says how long it took.
    pub fn over(
        name: &str,
        scale: &Scale,
        total: u64,
        step: impl Fn(&mut Self, &mut Random, u64) + Sync,
    ) -> Self {
        let start = Instant::now();
        let part = &|k: u64| {
            let (mut tally, mut random) = (Self::new(name), Random(k));
            let range = total * k / scale.threads..total * (k + 1) / scale.threads;
            range.for_each(|n| step(&mut tally, &mut random, n));
            tally
        };
        let tally = thread::scope(|scope| {
            let parts: Vec<_> = (0..scale.threads).map(|k| scope.spawn(move || part(k))).collect();
            parts.into_iter().map(|part| part.join().unwrap()).fold(Self::new(name), Self::add)
        });
        eprintln!("{name} .. {:.1} s", start.elapsed().as_secs_f64());
        tally
    }

    fn add(mut self, other: Self) -> Self {
        self.compared += other.compared;
        self.differed += other.differed;
        self.first = self.first.or(other.first);
        self.far(other.most);
        other
            .ended
            .into_iter()
            .for_each(|(end, times)| *self.ended.entry(end).or_default() += times);
        self
    }

    pub fn count(&mut self, same: bool, given: impl Debug, port: impl Debug, rust: impl Debug) {
        self.compared += 1;
        if !same {
            self.differed += 1;
            // Of a long input the end would be all there is to see.
            let told =
                |what: &dyn Debug| format!("{what:x?}").chars().take(1_000).collect::<String>();
            let words = || format!("{}: {}, not {}", told(&given), told(&port), told(&rust));
            self.first.get_or_insert_with(words);
        }
    }

    /// A function's name, the port's answer and the Rust's.
    pub fn same<A: PartialEq + Debug>(&mut self, given: impl Debug, both: (&str, A, A)) {
        let (name, port, rust) = both;
        self.count(port == rust, (name, given), &port, &rust);
    }

    /// So many compared at once, and the first difference among them in words.
    pub fn told(&mut self, compared: u64, difference: Option<String>) {
        self.compared += compared;
        self.differed += u64::from(difference.is_some());
        self.first = self.first.take().or(difference);
    }

    pub fn end(&mut self, end: (&'static str, u32)) {
        *self.ended.entry(end).or_default() += 1;
    }

    pub fn ended(&self, end: (&'static str, u32)) -> bool {
        self.ended.contains_key(&end)
    }

    pub fn far(&mut self, degrees: [f64; 2]) {
        self.most = [0, 1].map(|k| self.most[k].max(degrees[k]));
    }

    pub fn failed(&self) -> bool {
        self.differed > 0 && !self.shown_only
    }

    pub fn print(&self) {
        print!("{:<24} compared {:>11}  differed {}", self.name, self.compared, self.differed);
        let [rust, exact] = self.most;
        if exact > 0.0 {
            print!("; at most {rust:.9} degrees from the Rust, {exact:.9} from f64 atan2");
        }
        println!("{}", if self.shown_only { "; not judged" } else { "" });
        if !self.ended.is_empty() {
            let told = |((end, number), times): (&(&str, u32), &u64)| match number {
                0 => format!("{end} {times}"),
                _ => format!("{end} {number}: {times}"),
            };
            println!("    {}", self.ended.iter().map(told).collect::<Vec<_>>().join(", "));
        }
        self.first.iter().for_each(|first| println!("    first: {first}"));
    }
}
