//! What is asked of a search beside its craft, and the limits of it.

use crate::random::Random;
use crate::trees::{BELOW_ONE, LEAST};
use crafty::SearchOptions;

pub const ITERATIONS_MOST: u32 = 4_096;
pub const WEIGHTING_MOST: f32 = 1.0;
pub const EXPLORATION_MOST: f32 = 16.0;

/// Every threshold has its use but a NaN.
pub const THRESHOLDS: [f32; 12] = [
    -1.0,
    -0.0,
    0.0,
    0.2,
    0.5,
    1.0,
    BELOW_ONE,
    -LEAST,
    LEAST,
    2.0,
    f32::INFINITY,
    f32::NEG_INFINITY,
];
pub const WEIGHTINGS: [f32; 6] = [0.0, -0.0, LEAST, 0.1, BELOW_ONE, WEIGHTING_MOST];
pub const EXPLORATIONS: [f32; 6] = [0.0, -0.0, LEAST, 1.5, BELOW_SIXTEEN, EXPLORATION_MOST];
const BELOW_SIXTEEN: f32 = f32::from_bits(0x417F_FFFF);

#[derive(Clone, Copy, Debug)]
pub struct Options {
    pub iterations: u32,
    pub threshold: f32,
    pub weighting: f32,
    pub exploration: f32,
}

impl Options {
    /// Mostly so few iterations that many searches can be asked; thresholds that let whole paths be stored.
    pub fn random(random: &mut Random) -> Options {
        Options {
            iterations: iterations(random),
            threshold: if random.one_in(2) {
                random.any(&THRESHOLDS)
            } else {
                2.0 * part(random) - 1.0
            },
            weighting: one_of(random, &WEIGHTINGS, WEIGHTING_MOST),
            exploration: one_of(random, &EXPLORATIONS, EXPLORATION_MOST),
        }
    }

    /// A NaN is in no range.
    pub fn are_inside(&self) -> bool {
        self.iterations <= ITERATIONS_MOST
            && !self.threshold.is_nan()
            && (0.0..=WEIGHTING_MOST).contains(&self.weighting)
            && (0.0..=EXPLORATION_MOST).contains(&self.exploration)
    }

    /// As the Rust takes them.
    pub fn rust(&self, seed: u32) -> SearchOptions {
        SearchOptions {
            iterations: self.iterations,
            rng_seed: Some(seed),
            score_storage_threshold: Some(self.threshold),
            max_score_weighting_constant: Some(self.weighting),
            exploration_constant: Some(self.exploration),
        }
    }
}

fn iterations(random: &mut Random) -> u32 {
    match random.below(16) {
        0 => random.any(&[0, 1, 2, ITERATIONS_MOST - 1, ITERATIONS_MOST]),
        1..=4 => random.between(0, ITERATIONS_MOST),
        5..=8 => random.between(0, 40),
        _ => random.between(0, 400),
    }
}

/// An edge, or anything from 0 to the most.
fn one_of(random: &mut Random, edges: &[f32], most: f32) -> f32 {
    if random.one_in(2) {
        return random.any(edges);
    }
    most * part(random)
}

/// From 0 to 1.
fn part(random: &mut Random) -> f32 {
    random.bits() as f32 / 4_294_967_296.0
}
