//! What is wrong before any work: fields of the context, an option, a logarithm, and no record at all.

use super::call::Call;
use super::logarithms::{LOGARITHMS, LOGARITHM_MOST};
use super::options::{EXPLORATION_MOST, ITERATIONS_MOST, WEIGHTING_MOST};
use crate::outside::{self, in_words};
use crate::random::Random;
use crate::trees::{LEAST, NANS};
use std::sync::Arc;

/// The place of step_max among the fields.
const STEP_MAX: usize = 4;

/// What is done to a call.
pub type Wrong = (&'static str, fn(&mut Random, &mut Call));

pub const WRONGS: [Wrong; 15] = [
    ("fields outside", |random, call| outside::push(random, &mut call.context, &in_words())),
    ("iterations", |random, call| {
        call.options.iterations = random.any(&[ITERATIONS_MOST + 1, 10_000, 1 << 31, u32::MAX]);
    }),
    ("threshold NaN", |random, call| call.options.threshold = random.any(&NANS)),
    ("weighting above 1", |random, call| {
        call.options.weighting = random.any(&[WEIGHTING_MOST.next_up(), 16.0, f32::INFINITY]);
    }),
    ("weighting below 0", |random, call| call.options.weighting = below_zero(random)),
    ("weighting NaN", |random, call| call.options.weighting = random.any(&NANS)),
    ("exploration above 16", |random, call| {
        call.options.exploration = random.any(&[EXPLORATION_MOST.next_up(), 17.0, f32::INFINITY]);
    }),
    ("exploration below 0", |random, call| call.options.exploration = below_zero(random)),
    ("exploration NaN", |random, call| call.options.exploration = random.any(&NANS)),
    ("logarithm above 17", |random, call| {
        let number = random.any(&[LOGARITHM_MOST.next_up(), 18.0, f32::INFINITY]);
        put_logarithm(random, call, number);
    }),
    ("logarithm below 0", |random, call| {
        let number = below_zero(random);
        put_logarithm(random, call, number);
    }),
    ("logarithm NaN", |random, call| {
        let number = random.any(&NANS);
        put_logarithm(random, call, number);
    }),
    ("logarithms missing", |random, call| {
        let length = random.any(&[LOGARITHMS - 1, LOGARITHMS / 2, 1, 0]);
        Arc::make_mut(&mut call.logarithms).truncate(length);
    }),
    ("step_max 0", |_, call| call.context[STEP_MAX] = 0),
    ("no record", |_, call| call.records = 0),
];

fn below_zero(random: &mut Random) -> f32 {
    random.any(&[-LEAST, -1.0, f32::NEG_INFINITY])
}

/// At the first or the last that counts, or anywhere between.
fn put_logarithm(random: &mut Random, call: &mut Call, number: f32) {
    let length = call.logarithms.len().min(LOGARITHMS);
    if length > 0 {
        let place = random.place(length);
        let place = random.any(&[0, length - 1, place]);
        Arc::make_mut(&mut call.logarithms)[place] = number;
    }
}
