//! Measuring two sides in turn: repeats of equal length, medians, and the spread of the ratios.

use std::{
    hint::black_box,
    time::{Duration, Instant},
};

pub const REPEATS: usize = 9;
const LEAST: Duration = Duration::from_millis(60);

/// Nanoseconds for one round, in every repeat.
pub struct Series(Vec<f64>);

/// Two sides measured in turn.
pub struct Pair {
    pub rust: Series,
    pub ours: Series,
}

impl Series {
    pub fn median(&self) -> f64 {
        middle(&self.0)
    }

    /// The smallest and the largest.
    pub fn spread(&self) -> (f64, f64) {
        ends(&self.0)
    }
}

impl Pair {
    /// How many times faster ours is: the median of the repeats' ratios, the smallest and the largest.
    pub fn ratio(&self) -> (f64, f64, f64) {
        let ratios: Vec<f64> = self.rust.0.iter().zip(&self.ours.0).map(|(rust, ours)| rust / ours).collect();
        let (low, high) = ends(&ratios);
        (middle(&ratios), low, high)
    }
}

/// Measures both sides in turn, so that a slow moment of the machine meets both.
pub fn pair<A, B>(mut rust: impl FnMut() -> A, mut ours: impl FnMut() -> B) -> Pair {
    let (rust_rounds, our_rounds) = (rounds(&mut rust), rounds(&mut ours));
    let mut found = Pair { rust: Series(Vec::new()), ours: Series(Vec::new()) };
    for _ in 0..REPEATS {
        found.rust.0.push(time(&mut rust, rust_rounds));
        found.ours.0.push(time(&mut ours, our_rounds));
    }
    found
}

/// Measures one side alone.
pub fn single<A>(mut run: impl FnMut() -> A) -> Series {
    let rounds = rounds(&mut run);
    Series((0..REPEATS).map(|_| time(&mut run, rounds)).collect())
}

/// How many rounds fill the least time of a repeat.
fn rounds<A>(run: &mut impl FnMut() -> A) -> u32 {
    let mut rounds = 1;
    loop {
        let nanoseconds = time(run, rounds) * f64::from(rounds);
        if nanoseconds >= LEAST.as_nanos() as f64 {
            return rounds;
        }
        rounds *= 2;
    }
}

fn time<A>(run: &mut impl FnMut() -> A, rounds: u32) -> f64 {
    let start = Instant::now();
    for _ in 0..rounds {
        black_box(run());
    }
    start.elapsed().as_nanos() as f64 / f64::from(rounds)
}

fn middle(numbers: &[f64]) -> f64 {
    let mut sorted = numbers.to_vec();
    sorted.sort_by(f64::total_cmp);
    sorted[sorted.len() / 2]
}

fn ends(numbers: &[f64]) -> (f64, f64) {
    let low = numbers.iter().copied().fold(f64::INFINITY, f64::min);
    let high = numbers.iter().copied().fold(0.0, f64::max);
    (low, high)
}
