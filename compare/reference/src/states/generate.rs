//! Random states: on the way of a craft or made up, and now and then outside the limits.

use super::fields::numbers;
use super::line::Numbers;
use super::out_of_range;
use super::random_context;
use super::random_state;
use crate::outside::{self, in_record};
use crate::random::Random;

/// States by their number in a run.
pub fn states(seed: u64, count: u64) -> impl Iterator<Item = Numbers> {
    (0..count).map(move |number| state(&mut Random::numbered(seed, number)))
}

pub fn state(random: &mut Random) -> Numbers {
    let context = random_context::context(random);
    let state = if random.one_in(2) {
        random_state::on_the_way(random, &context)
    } else {
        random_state::made_up(random, &context)
    };
    let mut numbers = numbers(&state);
    match random.below(128) {
        0 => outside::push(random, &mut numbers, &in_record()),
        1 => out_of_range::push(random, &mut numbers),
        _ => {}
    }
    numbers
}
