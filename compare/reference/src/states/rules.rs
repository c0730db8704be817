//! A model of the legal moves: which rule decides on a candidate, in the order of the source.

use super::mode::Mode;
use super::own_rules::{is_observing, own_rule, Condition};
use crafty::{Action, CraftState};
use std::fmt;

/// How the first rule that decides does so; the last two are an action's own rule, by its number.
#[derive(Clone, Copy, PartialEq, Eq, Hash)]
pub enum Decision {
    TooDear,
    QualityFull,
    TrainedEyeAlone,
    NotTrainedEye,
    MuscleMemory,
    Veneration,
    Observing,
    FinishesTooEarly,
    Innovation,
    LetThrough(usize),
    HeldBack(usize, Condition),
}

pub fn decide(state: &CraftState, action: Action, mode: Mode) -> Decision {
    let row = action.attributes();
    if row.cp_cost.is_some_and(|price| price > state.cp) {
        return Decision::TooDear;
    }
    if is_touch(action) && state.quality >= state.context.quality_target {
        return Decision::QualityFull;
    }
    let strict = (mode == Mode::Strict).then(|| decide_strictly(state, action)).flatten();
    strict.unwrap_or_else(|| decide_by_own_rule(state, action, mode))
}

/// None where the strict rules leave it to the action's own.
fn decide_strictly(state: &CraftState, action: Action) -> Option<Decision> {
    if opens_with_trained_eye(state) {
        let is_it = action == Action::TrainedEye;
        return Some(if is_it { Decision::TrainedEyeAlone } else { Decision::NotTrainedEye });
    }
    let same_level = state.context.player_job_level == state.context.recipe_job_level;
    if is_touch(action) && same_level && state.buffs.muscle_memory > 0 {
        return Some(Decision::MuscleMemory);
    }
    if is_touch(action) && !is_synthesis(action) && state.buffs.veneration > 0 {
        return Some(Decision::Veneration);
    }
    if is_observing(state) && action != Action::AdvancedTouch {
        return Some(Decision::Observing);
    }
    if !is_synthesis(action) {
        return None;
    }
    if finishes(state, action) {
        let is_early = state.quality < state.context.quality_target / 5;
        return is_early.then_some(Decision::FinishesTooEarly);
    }
    (!is_touch(action) && state.buffs.innovation > 0).then_some(Decision::Innovation)
}

fn decide_by_own_rule(state: &CraftState, action: Action, mode: Mode) -> Decision {
    let number = action as usize;
    let conditions = own_rule(action, mode).iter();
    let failing = conditions.copied().find(|condition| !condition.holds(state, action));
    failing.map_or(Decision::LetThrough(number), |failing| Decision::HeldBack(number, failing))
}

pub fn has_ended(state: &CraftState) -> bool {
    let context = state.context;
    state.progress >= context.progress_target
        || state.step >= context.step_max
        || state.durability <= 0
}

fn is_touch(action: Action) -> bool {
    action.attributes().quality_efficiency.is_some()
}

fn is_synthesis(action: Action) -> bool {
    action.attributes().progress_efficiency.is_some()
}

fn opens_with_trained_eye(state: &CraftState) -> bool {
    let context = state.context;
    let has_it = context.action_pool.contains(Action::TrainedEye);
    state.step == 1 && context.quality_target > 0 && !context.is_expert && has_it
}

fn finishes(state: &CraftState, action: Action) -> bool {
    let efficiency = action.attributes().progress_efficiency.unwrap_or(0);
    let missing = state.context.progress_target.saturating_sub(state.progress);
    gain(state, efficiency) >= u64::from(missing)
}

fn gain(state: &CraftState, efficiency: u32) -> u64 {
    let venerated = if state.buffs.veneration > 0 { 50 } else { 0 };
    let remembered = if state.buffs.muscle_memory > 0 { 100 } else { 0 };
    let base = u64::from(state.context.base_progress_factor);
    base * u64::from(efficiency) * (100 + venerated + remembered) / 10_000
}

impl Decision {
    pub fn is_legal(self) -> bool {
        matches!(self, Decision::TrainedEyeAlone | Decision::LetThrough(_))
    }
}

impl fmt::Display for Decision {
    fn fmt(&self, out: &mut fmt::Formatter) -> fmt::Result {
        match self {
            Decision::TooDear => write!(out, "too dear"),
            Decision::QualityFull => write!(out, "quality full"),
            Decision::TrainedEyeAlone => write!(out, "TrainedEye alone: let through"),
            Decision::NotTrainedEye => write!(out, "TrainedEye alone: held back"),
            Decision::MuscleMemory => write!(out, "touch under muscle memory"),
            Decision::Veneration => write!(out, "touch under veneration"),
            Decision::Observing => write!(out, "observing"),
            Decision::FinishesTooEarly => write!(out, "finishes too early"),
            Decision::Innovation => write!(out, "synthesis under innovation"),
            Decision::LetThrough(number) => write!(out, "{}: let through", name(*number)),
            Decision::HeldBack(number, failing) => {
                write!(out, "{}: held back, not {failing:?}", name(*number))
            }
        }
    }
}

fn name(number: usize) -> &'static str {
    Action::ACTIONS[number].name()
}
