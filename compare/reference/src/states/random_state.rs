//! Random states inside the limits of a context.

use super::fields::buffs;
use super::limits::{BUFFS_MOST, DURABILITY_LEAST, STATE_AMOUNT_MOST};
use super::mode::Mode;
use crate::actions::COMBOS;
use crate::formulas::PERFECTIONS;
use crate::random::Random;
use crafty::{Action, CraftContext, CraftState};

/// A craft's state on its way is at most so many moves from the start.
const LONGEST_WAY: u32 = 30;

/// A state that legal moves lead to.
pub fn on_the_way<'a>(random: &mut Random, context: &'a CraftContext) -> CraftState<'a> {
    let mode = random.any(&Mode::BOTH);
    let mut state = mode.start(context);
    for _ in 0..random.between(0, LONGEST_WAY) {
        let Some(action) = next_move(random, &state) else { break };
        state = mode.execute(&state, action);
    }
    state
}

/// Prefers an opening and the second half of a combo, and puts off a synthesis, so that crafts go on.
pub fn next_move(random: &mut Random, state: &CraftState) -> Option<Action> {
    let moves = state.available_moves.to_vec();
    let preferred: Vec<Action> =
        moves.iter().copied().filter(|action| is_preferred(state, *action)).collect();
    if !preferred.is_empty() && random.one_in(2) {
        return Some(random.any(&preferred));
    }
    let put_off = |action: &Action| action.attributes().progress_efficiency.is_some();
    let others: Vec<Action> = moves.iter().copied().filter(|action| !put_off(action)).collect();
    if !others.is_empty() && !random.one_in(4) {
        return Some(random.any(&others));
    }
    (!moves.is_empty()).then(|| random.any(&moves))
}

fn is_preferred(state: &CraftState, action: Action) -> bool {
    use Action::*;
    match action {
        MuscleMemory | Reflect => true,
        StandardTouch | RefinedTouch => state.previous_combo_action == Some(BasicTouch),
        AdvancedTouch => state.previous_combo_action.is_some(),
        _ => false,
    }
}

/// Each field random inside its limits, often at an edge.
pub fn made_up<'a>(random: &mut Random, context: &'a CraftContext) -> CraftState<'a> {
    let (previous_combo_action, action) = combo_and_last(random);
    CraftState {
        step: step(random, context.step_max),
        progress: progress(random, context),
        quality: quality(random, context.quality_target),
        durability: durability(random, context.durability_max),
        cp: cp(random, context.cp_max),
        previous_combo_action,
        quick_innovation_available: random.one_in(2),
        trained_perfection_active: random.any(&PERFECTIONS),
        buffs: buffs(&BUFFS_MOST.map(|most| buff(random, most))),
        action,
        ..CraftState::_new(context)
    }
}

fn combo_and_last(random: &mut Random) -> (Option<Action>, Option<Action>) {
    let combo = random.any(&COMBOS);
    match combo {
        Some(_) => (combo, combo),
        None if random.one_in(4) => (None, None),
        None => (None, Some(random.any(Action::ACTIONS))),
    }
}

/// Mostly before the last step, and often the first.
fn step(random: &mut Random, most: u8) -> u8 {
    let before_last = most.saturating_sub(1).max(1);
    match random.below(16) {
        0..=3 => 1,
        4 => most.max(1),
        5 => before_last,
        6 => random.between(1, 255) as u8,
        _ => random.between(1, u32::from(before_last)) as u8,
    }
}

/// Mostly short of the target, often by about what one action adds.
fn progress(random: &mut Random, context: &CraftContext) -> u32 {
    let target = context.progress_target;
    match random.below(16) {
        0 => random.between(0, STATE_AMOUNT_MOST),
        1 => near(random, STATE_AMOUNT_MOST, STATE_AMOUNT_MOST),
        2 => near(random, target, STATE_AMOUNT_MOST),
        3..=7 => {
            let gain = gain(random, context.base_progress_factor);
            near(random, target.saturating_sub(gain), STATE_AMOUNT_MOST)
        }
        _ => random.below(target.max(1)),
    }
}

/// What some action adds, plain or under one or both of its buffs.
fn gain(random: &mut Random, factor: u32) -> u32 {
    let efficiency = random.any(Action::ACTIONS).attributes().progress_efficiency.unwrap_or(100);
    let multiplier = random.any(&[100, 150, 200, 250]);
    (u64::from(factor) * u64::from(efficiency) * multiplier / 10_000) as u32
}

/// Around the target, and the third and fifth of it that strict rules look at.
fn quality(random: &mut Random, target: u32) -> u32 {
    match random.below(16) {
        0 => random.between(0, STATE_AMOUNT_MOST),
        1 => near(random, STATE_AMOUNT_MOST, STATE_AMOUNT_MOST),
        2 => 0,
        3 => near(random, target, STATE_AMOUNT_MOST),
        4..=6 => near(random, target / 5, STATE_AMOUNT_MOST),
        7..=9 => near(random, target / 3, STATE_AMOUNT_MOST),
        _ => random.below(target.max(1)),
    }
}

/// Around the costs, and around the wear that mends look at.
fn durability(random: &mut Random, most: i8) -> i8 {
    let most = i32::from(most);
    let value = match random.below(16) {
        0 => i32::from(DURABILITY_LEAST) + random.below(20) as i32,
        1..=2 => most,
        3..=6 => random.any(&[1, 5, 10, 20]) + random.below(3) as i32 - 1,
        7..=9 => most - random.any(&[25, 45]) + random.below(3) as i32 - 1,
        _ => random.between(1, most as u32) as i32,
    };
    value.clamp(i32::from(DURABILITY_LEAST), most) as i8
}

/// Around a price, or around 25, which a strict Observe keeps.
fn cp(random: &mut Random, most: u32) -> u32 {
    match random.below(16) {
        0..=3 => most,
        4..=5 => {
            let price = random.any(Action::ACTIONS).attributes().cp_cost.unwrap_or(0);
            near(random, price, most)
        }
        6 => near(random, 25, most),
        _ => random.between(0, most),
    }
}

fn buff(random: &mut Random, most: u8) -> u32 {
    match random.below(8) {
        0..=3 => 0,
        4 => 1,
        5 => u32::from(most),
        _ => random.between(0, u32::from(most)),
    }
}

/// The value or one beside it, from 0 to the most.
fn near(random: &mut Random, value: u32, most: u32) -> u32 {
    (value + random.below(3)).saturating_sub(1).min(most)
}
