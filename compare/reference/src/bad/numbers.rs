//! Numbers that may be anything, also in the place of good ones.

use crate::outside::{self, Side};
use crate::random::Random;
use crate::texts::EDGES;

/// At the edge of some limit or beside it, one bit, a byte, or anything.
pub fn any(random: &mut Random) -> u32 {
    match random.below(4) {
        0 => random.any(&EDGES).wrapping_add(random.below(3)).wrapping_sub(1),
        1 => 1 << random.below(32),
        2 => random.below(256),
        _ => random.bits(),
    }
}

/// The number of an action is a byte; half of them are about those that are known.
pub fn action(random: &mut Random) -> u8 {
    let end = random.any(&[40, 256]);
    random.below(end) as u8
}

pub fn replace(random: &mut Random, numbers: &mut [u32]) {
    numbers.iter_mut().for_each(|number| *number = any(random));
}

/// One to three of them become anything, or have a bit changed.
pub fn damage(random: &mut Random, numbers: &mut [u32]) {
    for _ in 0..random.between(1, 3) {
        let place = random.place(numbers.len());
        numbers[place] =
            if random.one_in(2) { any(random) } else { numbers[place] ^ 1 << random.below(32) };
    }
}

/// One time in four all of them, one time in four some, one time in four one to three outside their limits.
pub fn spoil(random: &mut Random, numbers: &mut [u32], sides: &[Side]) {
    match random.below(4) {
        0 => replace(random, numbers),
        1 => damage(random, numbers),
        2 => outside::push(random, numbers, sides),
        _ => {}
    }
}
