//! The table of logarithms that a search is lent: number v - 1 is that of v visits.

use super::options::ITERATIONS_MOST;
use crate::random::Random;
use crate::trees::any_float;
use std::sync::{Arc, LazyLock};

/// As many as there may be visits.
pub const LOGARITHMS: usize = ITERATIONS_MOST as usize;
pub const LOGARITHM_MOST: f32 = 17.0;

/// A table; searches share one.
pub type Logarithms = Arc<Vec<f32>>;

/// The Rust's own.
static OWN: LazyLock<Logarithms> =
    LazyLock::new(|| Arc::new((1..=LOGARITHMS).map(|visits| (visits as f32).ln()).collect()));

pub fn own() -> Logarithms {
    Arc::clone(&OWN)
}

/// With anything behind it.
pub fn longer(random: &mut Random, more: usize) -> Logarithms {
    let mut table = OWN.to_vec();
    table.extend((0..more).map(|_| any_float(random)));
    Arc::new(table)
}

pub fn are_inside(table: &[f32]) -> bool {
    let is_inside = |number: &f32| (0.0..=LOGARITHM_MOST).contains(number);
    table.len() >= LOGARITHMS && table[..LOGARITHMS].iter().all(is_inside)
}
