//! The fixed list of states: both sides of every limit, the bench crafts, targets of 0, and some random ones.

use super::bench::{bench, crafts};
use super::fields::{numbers, COMBO, LAST, NO_ACTION, STEP};
use super::generate;
use super::line::{Numbers, NUMBERS};
use super::mode::Mode;
use crate::outside::{around, in_record};
use crafty::Action::{self, *};
use crafty::{Buffs, CraftContext, CraftState};

const SEED: u64 = 20_250_101;
const RANDOM: u64 = 64;
const AMOUNTS: &[u32] = &[0, 1, 1_000_000, 1_000_001, u32::MAX];
const FACTORS: &[u32] = &[0, 1, 200_070, 200_071, u32::MAX];
const FLAGS: &[u32] = &[0, 1];

/// The values that each number of a context is given in turn; a negative durability is given as its byte.
pub const CONTEXT_VALUES: [&[u32]; STEP] = [
    &[0, 10, 11, 49, 50, 51, u32::MAX],
    &[0, 49, 50, 51, u32::MAX],
    FACTORS,
    FACTORS,
    &[0, 1, 2, 7, 8, 255],
    &[0, 1, 400, 401, 1_000_000, 1_000_001, u32::MAX],
    AMOUNTS,
    &[0, 1, 300, 301, 1_000_000, 1_000_001, u32::MAX],
    &[0, 1, 40, 97, 98, 127, 128, 255],
    AMOUNTS,
    FLAGS,
    &[0, 1, 1 << 30, (1 << 31) - 1, 1 << 31, u32::MAX],
    FLAGS,
    FLAGS,
    FLAGS,
];

/// Those of the numbers of a state.
const STATE_VALUES: [&[u32]; NUMBERS - 1 - STEP] = [
    &[0, 1, 2, 19, 20, 255],
    &[0, 900, 999, 1_000, 16_777_216, 16_777_217, u32::MAX],
    &[0, 199, 200, 333, 334, 999, 1_000, 16_777_216, 16_777_217, u32::MAX],
    &[236, 237, 255, 0, 1, 9, 10, 19, 20, 39, 40, 41, 127, 128],
    &[0, 6, 17, 18, 24, 25, 199, 200, 201, u32::MAX],
    &[0, 5],
    FLAGS,
    &[0, 1, 2, 3],
    &[0, 1, 2, 9, 10, 11, 255],
    &[0, 1, 4, 5, 255],
    &[0, 1, 8, 9, 255],
    &[0, 1, 8, 9, 255],
    &[0, 1, 3, 4, 255],
    &[0, 1, 4, 5, 255],
    &[0, 1, 4, 5, 255],
    &[0, 1, 5, 6, 255],
    &[0, 30, 31, 255, NO_ACTION],
];

pub fn states() -> Vec<Numbers> {
    let lists = [limits(), fields(), combos(), bench_ways(), zeros(), both_outside()];
    let random = generate::states(SEED, RANDOM);
    lists.into_iter().flatten().chain(random).collect()
}

/// In the middle of a craft, with every buff up.
fn busy(context: &CraftContext) -> CraftState<'_> {
    let buffs = Buffs {
        inner_quiet: 5,
        waste_not: 2,
        waste_not_ii: 3,
        manipulation: 4,
        great_strides: 2,
        innovation: 1,
        veneration: 2,
        muscle_memory: 3,
    };
    CraftState {
        step: 7,
        progress: 400,
        quality: 300,
        durability: 1,
        cp: 0,
        quick_innovation_available: false,
        trained_perfection_active: Some(false),
        buffs,
        action: Some(GreatStrides),
        ..CraftState::_new(context)
    }
}

/// The start of a craft and the middle of one, with one number at a time on both sides of its limits.
fn limits() -> Vec<Numbers> {
    let context = bench();
    let expert = CraftContext { is_expert: true, ..bench() };
    let middles = [numbers(&CraftState::_new(&expert)), numbers(&busy(&context))];
    middles.iter().flat_map(varied).collect()
}

/// A craft's middle, which any context takes, with each field of the context at its limits, and every two outside.
fn fields() -> Vec<Numbers> {
    around(&numbers(&busy(&bench())), &in_record())
}

fn varied(middle: &Numbers) -> Vec<Numbers> {
    let mut states = Vec::new();
    for (place, values) in CONTEXT_VALUES.iter().chain(&STATE_VALUES).enumerate() {
        states.extend(values.iter().map(|value| with(middle, &[(place, *value)])));
    }
    states
}

pub fn with(middle: &Numbers, changes: &[(usize, u32)]) -> Numbers {
    let mut numbers = *middle;
    changes.iter().for_each(|(place, value)| numbers[*place] = *value);
    numbers
}

/// Every combo after its own action and after others, unknown ones and none.
fn combos() -> Vec<Numbers> {
    let context = bench();
    let second_step = numbers(&CraftState { step: 2, ..CraftState::_new(&context) });
    let own = [BasicTouch, StandardTouch, RefinedTouch, Observe].map(|action| action as u32);
    let mut states = Vec::new();
    for combo in 0..5 {
        for last in own.into_iter().chain([0, 30, 31, 255, NO_ACTION]) {
            states.push(with(&second_step, &[(COMBO, combo), (LAST, last)]));
        }
    }
    states
}

/// The bench crafts, with every state on their way.
fn bench_ways() -> Vec<Numbers> {
    crafts().iter().flat_map(|(context, mode, actions)| way(context, *mode, actions)).collect()
}

/// The states of a craft from its start as far as the actions are legal.
fn way(context: &CraftContext, mode: Mode, actions: &[Action]) -> Vec<Numbers> {
    let mut state = mode.start(context);
    let mut states = vec![numbers(&state)];
    for action in actions {
        if !state.available_moves.contains(*action) {
            break;
        }
        state = mode.execute(&state, *action);
        states.push(numbers(&state));
    }
    states
}

/// Targets, points and steps of 0, alone and together, at the start and past it.
fn zeros() -> Vec<Numbers> {
    let no_progress = CraftContext { progress_target: 0, ..bench() };
    let no_quality = CraftContext { quality_target: 0, ..bench() };
    let no_cp = CraftContext { cp_max: 0, ..bench() };
    let no_steps = CraftContext { step_max: 0, ..bench() };
    let nothing =
        CraftContext { progress_target: 0, quality_target: 0, cp_max: 0, step_max: 0, ..bench() };
    let contexts = [no_progress, no_quality, no_cp, no_steps, nothing];
    let states = contexts.iter().flat_map(|context| [CraftState::_new(context), busy(context)]);
    states.map(|state| numbers(&state)).collect()
}

/// A context outside its limits is refused before a state outside its own.
fn both_outside() -> Vec<Numbers> {
    let context = CraftContext { durability_max: 98, ..bench() };
    let state = CraftState { step: 0, ..CraftState::_new(&context) };
    vec![numbers(&state)]
}
