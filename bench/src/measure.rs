//! Rounds of calls, ours and the Rust's in turn, and the medians of their times and of the ratio.

use std::fmt;
use std::time::{Duration, Instant};

/// How long the Rust's calls of a round take, at least.
const ROUND: Duration = Duration::from_millis(20);
/// Rounds at first that warm up and are not counted.
const WARMING: usize = 2;

/// What some calls took, and a sum over what they answered.
pub type Timed = (Duration, u64);

/// What a call takes in a round, ours and the Rust's, in nanoseconds.
pub type Times = (f64, f64);

/// The medians over the rounds of a case.
pub struct Figure {
    pub name: String,
    pub ours: f64,
    pub rust: f64,
    /// How many times as fast as the Rust ours is.
    pub ratio: f64,
}

impl Figure {
    /// The ratio comes from shares of the Rust's time, since a time of ours that is a difference may be 0 in a round.
    pub fn new(name: String, rounds: &[Times]) -> Figure {
        Figure {
            name,
            ours: median(rounds.iter().map(|(ours, _)| *ours)),
            rust: median(rounds.iter().map(|(_, rust)| *rust)),
            ratio: 1.0 / median(rounds.iter().map(|(ours, rust)| ours / rust)),
        }
    }
}

impl fmt::Display for Figure {
    fn fmt(&self, out: &mut fmt::Formatter) -> fmt::Result {
        let Figure { name, ours, rust, ratio } = self;
        write!(out, "{name:<48} {ours:>12.0} {rust:>12.0} {ratio:>9.3}")
    }
}

/// Times `call` on each of what was made ready for it.
pub fn timed<T>(ready: Vec<T>, mut call: impl FnMut(T) -> u64) -> Timed {
    let start = Instant::now();
    let mut sum = 0u64;
    for given in ready {
        sum = sum.wrapping_add(call(given));
    }
    (start.elapsed(), sum)
}

/// Each side is told how many calls to make, and both must answer the same.
pub fn compare(
    name: String,
    rounds: usize,
    mut ours: impl FnMut(usize) -> Timed,
    mut rust: impl FnMut(usize) -> Timed,
) -> Figure {
    let calls = calls_of_a_round(&mut rust);
    let round = || {
        let (our_time, our_sum) = ours(calls);
        let (rust_time, rust_sum) = rust(calls);
        assert_eq!(our_sum, rust_sum, "the answers differ: {name}");
        (each(our_time, calls), each(rust_time, calls))
    };
    let times = in_rounds(rounds, round);
    Figure::new(name, &times)
}

/// What each round told.
pub fn in_rounds<T>(rounds: usize, mut round: impl FnMut() -> T) -> Vec<T> {
    (0..WARMING + rounds).map(|_| round()).skip(WARMING).collect()
}

pub fn each(time: Duration, calls: usize) -> f64 {
    time.as_nanos() as f64 / calls as f64
}

fn calls_of_a_round(rust: &mut impl FnMut(usize) -> Timed) -> usize {
    let mut calls = 1;
    while rust(calls).0 < ROUND {
        calls *= 2;
    }
    calls
}

pub fn median(values: impl Iterator<Item = f64>) -> f64 {
    let mut sorted: Vec<f64> = values.collect();
    sorted.sort_by(f64::total_cmp);
    sorted[sorted.len() / 2]
}
