//! Contexts and states from the numbers of a line, and back.

use super::line::{Numbers, NUMBERS};
use crate::actions::COMBOS;
use crate::formulas::PERFECTIONS;
use crate::limits::FIELDS;
use crafty::{Action, ActionSet, Buffs, CraftContext, CraftState};

/// The places of numbers in a line.
pub const PROGRESS_TARGET: usize = 5;
pub const STARTING_QUALITY: usize = 6;
pub const QUALITY_TARGET: usize = 7;
pub const DURABILITY_MAX: usize = 8;
pub const CP_MAX: usize = 9;
pub const POOL: usize = 11;
pub const STEP: usize = FIELDS;
pub const PROGRESS: usize = 16;
pub const QUALITY: usize = 17;
pub const DURABILITY: usize = 18;
pub const CP: usize = 19;
pub const COMBO: usize = 20;
pub const PERFECTION: usize = 22;
pub const INNER_QUIET: usize = 23;
pub const LAST: usize = 31;

/// The numbers of a context, which come first in a line.
pub type ContextNumbers = [u32; STEP];

/// The numbers of a state, which come after them.
pub type StateNumbers = [u32; LAST + 1 - STEP];

/// The number that says that no action came before.
pub const NO_ACTION: u32 = 256;
/// And how the archive says it.
const NO_LAST: u32 = 31;

/// From the first numbers of a line.
pub fn context(numbers: &[u32]) -> CraftContext {
    CraftContext {
        player_job_level: numbers[0],
        recipe_job_level: numbers[1],
        base_progress_factor: numbers[2],
        base_quality_factor: numbers[3],
        step_max: numbers[4] as u8,
        progress_target: numbers[PROGRESS_TARGET],
        starting_quality: numbers[STARTING_QUALITY],
        quality_target: numbers[QUALITY_TARGET],
        durability_max: numbers[DURABILITY_MAX] as i8,
        cp_max: numbers[CP_MAX],
        is_expert: numbers[10] == 1,
        action_pool: set(numbers[POOL]),
        player_is_specialist: numbers[12] == 1,
        use_manipulation: numbers[13] == 1,
        use_delineation: numbers[14] == 1,
    }
}

/// The Rust has no state whose last action is unknown: such a number is read as none here.
pub fn state<'a>(numbers: &Numbers, context: &'a CraftContext) -> CraftState<'a> {
    CraftState {
        step: numbers[STEP] as u8,
        progress: numbers[PROGRESS],
        quality: numbers[QUALITY],
        durability: numbers[DURABILITY] as i8,
        cp: numbers[CP],
        previous_combo_action: COMBOS.get(numbers[COMBO] as usize).copied().flatten(),
        quick_innovation_available: numbers[21] == 1,
        trained_perfection_active: PERFECTIONS.get(numbers[PERFECTION] as usize).copied().flatten(),
        buffs: buffs(&numbers[INNER_QUIET..LAST]),
        action: Action::ACTIONS.get(numbers[LAST] as usize).copied(),
        ..CraftState::_new(context)
    }
}

/// Eight numbers, in field order.
pub fn buffs(numbers: &[u32]) -> Buffs {
    Buffs {
        inner_quiet: numbers[0] as u8,
        waste_not: numbers[1] as u8,
        waste_not_ii: numbers[2] as u8,
        manipulation: numbers[3] as u8,
        great_strides: numbers[4] as u8,
        innovation: numbers[5] as u8,
        veneration: numbers[6] as u8,
        muscle_memory: numbers[7] as u8,
    }
}

pub fn set(bits: u32) -> ActionSet {
    let mut set = ActionSet::new();
    set.set_bit(bits);
    set
}

/// The line's numbers: those of the state's context, then its own.
pub fn numbers(state: &CraftState) -> Numbers {
    let mut numbers = [0; NUMBERS];
    numbers[..STEP].copy_from_slice(&context_numbers(state.context));
    numbers[STEP..INNER_QUIET].copy_from_slice(&[
        u32::from(state.step),
        state.progress,
        state.quality,
        byte(state.durability),
        state.cp,
        place(&COMBOS, &state.previous_combo_action),
        u32::from(state.quick_innovation_available),
        place(&PERFECTIONS, &state.trained_perfection_active),
    ]);
    numbers[INNER_QUIET..LAST].copy_from_slice(&buff_timers(state).map(u32::from));
    numbers[LAST] = state.action.map_or(NO_ACTION, |action| action as u32);
    numbers
}

/// The seventeen fields of a state as the archive tells them.
pub fn told_numbers(state: &CraftState) -> StateNumbers {
    let mut numbers = numbers(state);
    numbers[DURABILITY] = i32::from(state.durability) as u32;
    if state.action.is_none() {
        numbers[LAST] = NO_LAST;
    }
    numbers[STEP..=LAST].try_into().expect("seventeen numbers")
}

pub fn context_numbers(context: &CraftContext) -> ContextNumbers {
    [
        context.player_job_level,
        context.recipe_job_level,
        context.base_progress_factor,
        context.base_quality_factor,
        u32::from(context.step_max),
        context.progress_target,
        context.starting_quality,
        context.quality_target,
        byte(context.durability_max),
        context.cp_max,
        u32::from(context.is_expert),
        context.action_pool.bits(),
        u32::from(context.player_is_specialist),
        u32::from(context.use_manipulation),
        u32::from(context.use_delineation),
    ]
}

/// In field order, inner quiet first, which is no timer but a count.
pub fn buff_timers(state: &CraftState) -> [u8; 8] {
    let buffs = &state.buffs;
    [
        buffs.inner_quiet,
        buffs.waste_not,
        buffs.waste_not_ii,
        buffs.manipulation,
        buffs.great_strides,
        buffs.innovation,
        buffs.veneration,
        buffs.muscle_memory,
    ]
}

fn byte(signed: i8) -> u32 {
    u32::from(signed as u8)
}

fn place<T: PartialEq>(values: &[T], value: &T) -> u32 {
    values.iter().position(|one| one == value).expect("a value that a line can say") as u32
}

/// The seventeen fields of a state as an answer says them.
pub fn words(state: &CraftState) -> String {
    let numbers = numbers(state);
    let mut words: Vec<String> = numbers[STEP..=LAST].iter().map(u32::to_string).collect();
    words[DURABILITY - STEP] = state.durability.to_string();
    if state.action.is_none() {
        words[LAST - STEP] = "-".to_string();
    }
    words.join(" ")
}
