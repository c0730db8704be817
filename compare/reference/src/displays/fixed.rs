//! The fixed list of Display lines: each number that a line shows at the edges of its digits, rooms of all
//! sizes, refusals before that of the room, and some random ones.

use super::generate;
use super::line::{needed, with_room, ROOM_MOST};
use crate::outside::{around, in_record};
use crate::states::bench::bench;
use crate::states::fields::{
    numbers, CP, CP_MAX, DURABILITY, DURABILITY_MAX, PROGRESS, PROGRESS_TARGET, QUALITY,
    QUALITY_TARGET, STEP,
};
use crate::states::fixed::with;
use crate::states::limits::{DURABILITY_LEAST, STATE_AMOUNT_MOST};
use crate::states::random_context::AMOUNT_MOST;
use crate::states::Numbers;
use crafty::{CraftContext, CraftState};

const SEED: u64 = 20_250_103;
const RANDOM: u64 = 32;
const POINTS: &[u32] = &[0, 9, 10, 99, 100, 999, 1_000, 999_999, 1_000_000, 1_000_001, u32::MAX];
const TARGETS: &[u32] = &[0, 9, 10, 9_999, 10_000, 99_999, 100_000, 1_000_000, 1_000_001, u32::MAX];
const AMOUNTS: &[u32] =
    &[0, 9, 10, 9_999, 10_000, 99_999, 100_000, 9_999_999, 10_000_000, 16_777_216, 16_777_217];

/// The numbers that a line shows, in its order, with their values; a negative durability is given as its
/// byte: 236, 237, 246, 247 and 255 are -20, -19, -10, -9 and -1.
const SHOWN: [(usize, &[u32]); 8] = [
    (PROGRESS, AMOUNTS),
    (PROGRESS_TARGET, TARGETS),
    (QUALITY, AMOUNTS),
    (QUALITY_TARGET, TARGETS),
    (DURABILITY, &[128, 236, 237, 246, 247, 255, 0, 1, 9, 10, 96, 97, 98, 127]),
    (DURABILITY_MAX, &[128, 246, 255, 0, 1, 9, 10, 97, 98, 127]),
    (CP, POINTS),
    (CP_MAX, POINTS),
];

pub fn displays() -> Vec<Numbers> {
    let lists = [digits(), rooms(), fields(), refused_with_no_room()];
    let random = generate::displays(SEED, RANDOM);
    lists.into_iter().flatten().chain(random).collect()
}

/// A craft of the greatest numbers, in which a state may have any.
fn wide() -> CraftContext {
    CraftContext {
        progress_target: AMOUNT_MOST,
        quality_target: AMOUNT_MOST,
        durability_max: 97,
        cp_max: AMOUNT_MOST,
        ..bench()
    }
}

/// Whose other numbers leave each number free.
fn least(context: &CraftContext) -> CraftState<'_> {
    CraftState { durability: DURABILITY_LEAST, cp: 0, ..CraftState::_new(context) }
}

/// The state with the longest line.
fn widest(context: &CraftContext) -> CraftState<'_> {
    CraftState {
        progress: STATE_AMOUNT_MOST,
        quality: STATE_AMOUNT_MOST,
        durability: DURABILITY_LEAST,
        ..CraftState::_new(context)
    }
}

/// Each number in turn, into a room that is exact and one that is a byte short.
fn digits() -> Vec<Numbers> {
    let middle = numbers(&least(&wide()));
    let mut displays = Vec::new();
    for (place, values) in SHOWN {
        for value in values {
            let state = with(&middle, &[(place, *value)]);
            let needed = needed(&state);
            displays.extend([needed, needed - 1].map(|room| with_room(&state, room)));
        }
    }
    displays
}

/// A line with no field outgrown, the longest, and one in between, into rooms from none to the largest.
fn rooms() -> Vec<Numbers> {
    let (bench, wide) = (bench(), wide());
    let states = [CraftState::_new(&bench), least(&wide), widest(&wide)];
    states.iter().flat_map(|state| in_rooms(&numbers(state))).collect()
}

fn in_rooms(state: &Numbers) -> Vec<Numbers> {
    let needed = needed(state);
    let around = needed - 2..=needed + 2;
    let sizes = [0, 1].into_iter().chain(around).chain([ROOM_MOST]);
    sizes.map(|room| with_room(state, room)).collect()
}

/// Each field of the context at its limits, and every two outside, into a room that is exact.
fn fields() -> Vec<Numbers> {
    let states = around(&numbers(&least(&wide())), &in_record());
    states.iter().map(|state| with_room(state, needed(state))).collect()
}

/// A context outside its limits, a state outside its own, and both, before a room that is too short.
fn refused_with_no_room() -> Vec<Numbers> {
    let start = numbers(&CraftState::_new(&bench()));
    let (context, state) = ((DURABILITY_MAX, 98), (STEP, 0));
    let changes: [&[(usize, u32)]; 3] = [&[context], &[state], &[context, state]];
    changes.map(|changes| with_room(&with(&start, changes), 0)).to_vec()
}
