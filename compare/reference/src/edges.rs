//! Every combination of the edges of stat, div and mod, for progress and quality together.

use crate::case::{Case, NUMBERS};
use crate::contexts::FLAGS;

const STATS: [u32; 4] = [0, 1, 9_999, 10_000];
const DIVS: [u32; 4] = [1, 2, 999, 1_000];
const MODS: [u32; 7] = [0, 1, 99, 100, 101, 199, 200];

/// A player and a recipe inside the limits, of one level, with every action in reach.
pub fn plain() -> [u32; NUMBERS] {
    let mut numbers = [0; NUMBERS];
    numbers[..16].copy_from_slice(&[
        100, 4_041, 3_987, 600, 1, 100, 0, 5_000, 9_000, 70, 130, 90, 115, 80, 0, 15,
    ]);
    numbers[FLAGS] = 7;
    numbers
}

pub fn cases() -> Vec<Case> {
    let factors = factors();
    let mut cases = Vec::new();
    for progress in &factors {
        for quality in &factors {
            // The modifier counts at the one level and not at the other.
            cases.extend([100, 99].map(|level| case(level, progress, quality)));
        }
    }
    cases
}

fn factors() -> Vec<[u32; 3]> {
    let mut factors = Vec::new();
    for stat in STATS {
        for div in DIVS {
            factors.extend(MODS.map(|modifier| [stat, div, modifier]));
        }
    }
    factors
}

fn case(recipe_level: u32, progress: &[u32; 3], quality: &[u32; 3]) -> Case {
    let mut numbers = plain();
    numbers[5] = recipe_level;
    [numbers[1], numbers[10], numbers[11]] = *progress;
    [numbers[2], numbers[12], numbers[13]] = *quality;
    Case::new(21, &numbers)
}
