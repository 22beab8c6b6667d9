//! Times: the three sides take turns on each book, in one process, each call under the clock by itself.

use crate::books::Sample;
use crate::sides::{check, Ours};
use std::hint::black_box;
use std::time::{Duration, Instant};
use vexil::timed::Prepared;

/// Of each book at least and at most so many rounds are taken.
const ROUNDS: (usize, usize) = (101, 20_001);

/// The median and the 99th percentile of some times, in nanoseconds.
#[derive(Clone, Copy)]
pub struct Times {
    pub median: f64,
    pub high: f64,
}

impl Times {
    fn of(mut all: Vec<u64>) -> Times {
        all.sort_unstable();
        Times { median: all[all.len() / 2] as f64, high: all[all.len() * 99 / 100] as f64 }
    }
}

/// The times of one book. The Rust has none where it is refused.
pub struct Row<'a> {
    pub sample: &'a Sample,
    pub rounds: usize,
    pub ours: Times,
    pub rust: Option<Times>,
    pub check: Times,
}

impl Row<'_> {
    /// How many times as long the Rust takes.
    pub fn gain(&self) -> Option<f64> {
        self.rust.map(|rust| rust.median / self.ours.median)
    }

    /// How many times as long as the check ours takes.
    pub fn over_check(&self) -> f64 {
        self.ours.median / self.check.median
    }

    pub fn per_block(&self) -> f64 {
        self.ours.median / self.sample.blocks as f64
    }
}

/// How long something takes, in nanoseconds, and what it gives.
fn timed<T>(work: impl FnOnce() -> T) -> (u64, T) {
    let start = Instant::now();
    let given = black_box(work());
    (start.elapsed().as_nanos() as u64, given)
}

/// What the clock itself takes, in nanoseconds: every time has this on top.
pub fn clock() -> Times {
    Times::of((0..100_001).map(|_| timed(|| ()).0).collect())
}

/// What one book is measured with.
struct Bench<'a> {
    sample: &'a Sample,
    ours: Ours,
    rust: Option<Prepared>,
}

impl Bench<'_> {
    fn ours(&mut self) -> u64 {
        let (time, reply) = timed(|| self.ours.call(&self.sample.bytes));
        assert_eq!(reply, self.sample.reply);
        time
    }

    /// The context is made before the clock starts and dropped behind its end.
    fn rust(&self) -> Option<u64> {
        let prepared = self.rust.as_ref()?;
        let mut context = prepared.context();
        Some(timed(|| prepared.lower(black_box(&mut context))).0)
    }

    fn check(&self) -> u64 {
        timed(|| check(black_box(&self.sample.bytes))).0
    }
}

/// Rounds over one book for so long, after a tenth of that for warming up.
fn row(sample: &Sample, time: Duration) -> Row<'_> {
    let rust = sample.accepted().then(|| Prepared::new(&sample.bytes));
    let mut bench = Bench { sample, ours: Ours::new(), rust };
    let warm = Instant::now();
    while warm.elapsed() < time / 10 {
        bench.ours();
        bench.rust();
        bench.check();
    }
    let (mut ours, mut rust, mut check) = (Vec::new(), Vec::new(), Vec::new());
    let start = Instant::now();
    while ours.len() < ROUNDS.0 || (ours.len() < ROUNDS.1 && start.elapsed() < time) {
        ours.push(bench.ours());
        rust.extend(bench.rust());
        check.push(bench.check());
    }
    let rounds = ours.len();
    let rust = (!rust.is_empty()).then(|| Times::of(rust));
    Row { sample, rounds, ours: Times::of(ours), rust, check: Times::of(check) }
}

/// The times of all books, which take about so long in all.
pub fn rows(samples: &[Sample], time: Duration) -> Vec<Row<'_>> {
    let each = time / samples.len() as u32;
    samples.iter().map(|sample| row(sample, each)).collect()
}
