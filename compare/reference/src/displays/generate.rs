//! Random Display lines: of random states, into a room of about the size needed.

use super::line::{needed, with_room, ROOM_MOST};
use crate::random::Random;
use crate::states::{random_one, Numbers};

/// Display lines by their number in a run.
pub fn displays(seed: u64, count: u64) -> impl Iterator<Item = Numbers> {
    (0..count).map(move |number| display(&mut Random::numbered(seed, number)))
}

fn display(random: &mut Random) -> Numbers {
    let state = random_one(random);
    with_room(&state, room(random, needed(&state)))
}

/// Mostly within two bytes of the size needed.
fn room(random: &mut Random, needed: u32) -> u32 {
    if random.one_in(4) {
        return random.between(0, ROOM_MOST);
    }
    random.between(needed - 2, needed + 2)
}
