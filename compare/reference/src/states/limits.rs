//! Contexts and states inside their limits, or refusals 1 and 2, which the Rust does not have.

use super::fields::{buff_timers, context, context_numbers, state, LAST, NO_ACTION};
use super::line::Numbers;
use crate::limits::{self, CONTEXT};
use crate::refusal::Refusal;
use crafty::{Action, CraftContext, CraftState};

pub const STATE_AMOUNT_MOST: u32 = 16_777_216;
pub const DURABILITY_LEAST: i8 = -19;
pub const BUFFS_MOST: [u8; 8] = [10, 4, 8, 8, 3, 4, 4, 5];

/// Of a record, whose numbers fit the types of their fields.
pub fn checked_context(numbers: &[u32]) -> Result<CraftContext, Refusal> {
    let context = context(numbers);
    limits::check(&context_numbers(&context), &CONTEXT, 0)?;
    Ok(context)
}

pub fn checked_state<'a>(
    numbers: &Numbers,
    context: &'a CraftContext,
) -> Result<CraftState<'a>, Refusal> {
    let state = state(numbers, context);
    if !(is_last_known(numbers[LAST]) && is_inside(&state)) {
        return Err(Refusal::OutsideState);
    }
    Ok(state)
}

fn is_last_known(number: u32) -> bool {
    number >= NO_ACTION || (number as usize) < Action::ACTIONS.len()
}

fn is_inside(state: &CraftState) -> bool {
    let combo = state.previous_combo_action;
    state.step >= 1
        && state.progress <= STATE_AMOUNT_MOST
        && state.quality <= STATE_AMOUNT_MOST
        && (DURABILITY_LEAST..=state.context.durability_max).contains(&state.durability)
        && state.cp <= state.context.cp_max
        && buff_timers(state).iter().zip(BUFFS_MOST).all(|(buff, most)| *buff <= most)
        && (combo.is_none() || combo == state.action)
}
