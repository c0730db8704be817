//! Floats at the edges of what a tree takes, and some in between.

use super::sound::VISITS_MOST;
use crate::random::Random;

/// The least number above zero, which is subnormal.
pub const LEAST: f32 = f32::from_bits(1);
/// Not numbers: of both signs, quiet and signalling, with something in their lower bits.
pub const NANS: [f32; 4] = [
    f32::NAN,
    f32::from_bits(0xFFC0_1234),
    f32::from_bits(0x7F80_0001),
    f32::from_bits(0xFFBF_FFFF),
];
pub const BELOW_ONE: f32 = f32::from_bits(0x3F7F_FFFF);
pub const ABOVE_ONE: f32 = f32::from_bits(0x3F80_0001);

/// Scores inside their limits.
pub const SCORES: [f32; 16] = [
    0.0,
    -0.0,
    1.0,
    -1.0,
    BELOW_ONE,
    -BELOW_ONE,
    0.5,
    -0.5,
    LEAST,
    -LEAST,
    f32::MIN_POSITIVE,
    -f32::MIN_POSITIVE,
    f32::from_bits(0x007F_FFFF),
    f32::EPSILON,
    0.1,
    -0.3,
];

/// And outside them.
pub const NO_SCORES: [f32; 12] = [
    ABOVE_ONE,
    -ABOVE_ONE,
    2.0,
    -2.0,
    f32::MAX,
    f32::MIN,
    f32::INFINITY,
    f32::NEG_INFINITY,
    NANS[0],
    NANS[1],
    NANS[2],
    NANS[3],
];

const VISITS: [f32; 10] = [
    0.0,
    -0.0,
    1.0,
    2.0,
    3.0,
    8_388_609.0,
    VISITS_MOST - 2.0,
    VISITS_MOST - 1.0,
    VISITS_MOST - 1.0,
    VISITS_MOST,
];

/// From -1 to 1.
pub fn score(random: &mut Random) -> f32 {
    if random.one_in(2) {
        return random.any(&SCORES);
    }
    let signs = random.any(&[1.0, -1.0]);
    signs * (random.bits() as f32 / 4_294_967_296.0)
}

/// From +0 to 1, often such as another has.
pub fn max_score(random: &mut Random) -> f32 {
    let score = score(random).abs();
    if random.one_in(2) {
        random.any(&[0.0, 0.5, 1.0])
    } else {
        score
    }
}

pub fn visits(random: &mut Random) -> f32 {
    if random.one_in(2) {
        random.any(&VISITS)
    } else {
        random.below(VISITS_MOST as u32) as f32
    }
}

/// No greater than the visits, up to its sign.
pub fn score_sum(random: &mut Random, visits: f32) -> f32 {
    let sum = match random.below(4) {
        0 => visits,
        1 if visits >= 1.0 => visits.next_down(),
        2 if visits >= 1.0 => random.any(&SCORES),
        _ => visits * (random.bits() as f32 / 4_294_967_296.0),
    };
    sum * random.any(&[1.0, -1.0])
}

/// Any bits at all, often such as no record has.
pub fn any(random: &mut Random) -> f32 {
    match random.below(3) {
        0 => random.any(&NO_SCORES),
        1 => random.any(&SCORES),
        _ => f32::from_bits(random.bits()),
    }
}
