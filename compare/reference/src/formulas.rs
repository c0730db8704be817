//! Answers of the inner functions of one action, kinds 18 to 20.

use crate::case::{Case, NUMBERS};
use crafty::{Action, ActionSet, CraftContext, CraftState};

/// A trained perfection by the numbers it has in a case.
pub const PERFECTIONS: [Option<bool>; 3] = [None, Some(true), Some(false)];
/// The answer beyond the limits.
pub const OUTSIDE: &str = "outside";

pub fn answer(case: &Case) -> String {
    let inside = case.numbers.iter().zip(limits(case.kind)).all(|(number, limit)| *number <= limit);
    if !inside {
        return OUTSIDE.to_string();
    }
    match case.kind {
        18 => progress_increase(case.numbers),
        19 => quality_increase(case.numbers),
        _ => durability_cost(case.numbers),
    }
}

/// The greatest value of each number; the least is 0.
pub fn limits(kind: u8) -> [u32; 8] {
    match kind {
        18 => [200_070, 500, 8, 8, 0, 0, 0, 0],
        19 => [30, 200_070, 300, 10, 8, 8, 1_000_000, 0],
        _ => [20, 2, 8, 8, 0, 0, 0, 0],
    }
}

/// A context whose fields a case replaces where they are read.
pub fn plain_context() -> CraftContext {
    CraftContext {
        player_job_level: 50,
        recipe_job_level: 50,
        base_progress_factor: 100,
        base_quality_factor: 100,
        step_max: 20,
        progress_target: 1000,
        starting_quality: 0,
        quality_target: 1000,
        durability_max: 40,
        cp_max: 200,
        is_expert: false,
        action_pool: ActionSet::new(),
        player_is_specialist: false,
        use_manipulation: true,
        use_delineation: true,
    }
}

fn progress_increase([base, efficiency, veneration, muscle_memory, ..]: [u32; NUMBERS]) -> String {
    let context = CraftContext { base_progress_factor: base, ..plain_context() };
    let mut state = CraftState::_new(&context);
    state.buffs.veneration = veneration as u8;
    state.buffs.muscle_memory = muscle_memory as u8;
    Action::calc_progress_increase(&state, efficiency).to_string()
}

fn quality_increase(
    [action, base, efficiency, inner_quiet, innovation, great_strides, missing, ..]: [u32; NUMBERS],
) -> String {
    let context =
        CraftContext { base_quality_factor: base, quality_target: missing, ..plain_context() };
    let mut state = CraftState::_new(&context);
    state.action = Some(Action::ACTIONS[action as usize]);
    state.buffs.inner_quiet = inner_quiet as u8;
    state.buffs.innovation = innovation as u8;
    state.buffs.great_strides = great_strides as u8;
    Action::calc_quality_increase(&state, efficiency).to_string()
}

fn durability_cost([base, perfection, waste_not, waste_not_ii, ..]: [u32; NUMBERS]) -> String {
    let context = plain_context();
    let mut state = CraftState::_new(&context);
    state.trained_perfection_active = PERFECTIONS[perfection as usize];
    state.buffs.waste_not = waste_not as u8;
    state.buffs.waste_not_ii = waste_not_ii as u8;
    Action::calc_durability_cost(&state, base as i8).to_string()
}
