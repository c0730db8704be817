//! Random contexts inside the limits: mostly crafts that go on for a while, often with a field at an edge.

use super::fields::set;
use crate::random::Random;
use crafty::{Action, ActionSet, CraftContext};

pub const AMOUNT_MOST: u32 = 1_000_000;
const FACTOR_MOST: u32 = 200_070;
const DURABILITY_MOST: u32 = 97;
const ALL: u32 = (1 << 31) - 1;

pub fn context(random: &mut Random) -> CraftContext {
    let (player_job_level, recipe_job_level) = levels(random);
    let (base_progress_factor, base_quality_factor) = (factor(random), factor(random));
    let quality_target = target(random, base_quality_factor);
    CraftContext {
        player_job_level,
        recipe_job_level,
        base_progress_factor,
        base_quality_factor,
        step_max: step_max(random),
        progress_target: target(random, base_progress_factor),
        starting_quality: starting_quality(random, quality_target),
        quality_target,
        durability_max: durability_max(random),
        cp_max: cp_max(random),
        is_expert: random.one_in(3),
        action_pool: pool(random, player_job_level),
        player_is_specialist: random.one_in(2),
        use_manipulation: !random.one_in(3),
        use_delineation: !random.one_in(3),
    }
}

/// Inner quiet begins at level 11, and muscle memory counts where the two are equal.
fn levels(random: &mut Random) -> (u32, u32) {
    let player = match random.below(8) {
        0 => random.between(1, 12),
        1 => random.bits(),
        _ => random.between(50, 100),
    };
    let recipe = if random.one_in(2) { player } else { random.between(1, 100) };
    (player, recipe)
}

fn factor(random: &mut Random) -> u32 {
    match random.below(32) {
        0 => 0,
        1 => FACTOR_MOST,
        2..=3 => random.between(0, FACTOR_MOST),
        _ => random.between(20, 400),
    }
}

/// Mostly what one to two dozen actions add.
fn target(random: &mut Random, factor: u32) -> u32 {
    match random.below(32) {
        0 => 0,
        1 => AMOUNT_MOST,
        2 => random.between(0, AMOUNT_MOST),
        _ => random.between(factor, factor * 24).min(AMOUNT_MOST),
    }
}

fn starting_quality(random: &mut Random, target: u32) -> u32 {
    match random.below(16) {
        0 => target,
        1 => random.between(0, AMOUNT_MOST),
        2..=5 => random.between(0, target),
        _ => 0,
    }
}

fn step_max(random: &mut Random) -> u8 {
    let most = match random.below(32) {
        0 => 0,
        1 => 1,
        2 => 255,
        3 => random.below(256),
        _ => random.between(8, 60),
    };
    most as u8
}

fn durability_max(random: &mut Random) -> i8 {
    let most = match random.below(8) {
        0 => random.between(1, DURABILITY_MOST),
        1 => DURABILITY_MOST,
        _ => 5 * random.between(4, 19),
    };
    most as i8
}

fn cp_max(random: &mut Random) -> u32 {
    match random.below(16) {
        0 => 0,
        1 => random.between(0, AMOUNT_MOST),
        2..=4 => random.between(0, 260),
        _ => random.between(250, 700),
    }
}

/// A full, a level's, an even or a dense pool; TrainedEye is taken out of half of them.
fn pool(random: &mut Random, level: u32) -> ActionSet {
    let bits = match random.below(4) {
        0 => ALL,
        1 => of_level(level),
        2 => random.bits() & ALL,
        _ => (random.bits() | random.bits()) & ALL,
    };
    let mut pool = set(bits);
    if random.one_in(2) {
        pool.unset(Action::TrainedEye);
    }
    pool
}

fn of_level(level: u32) -> u32 {
    let actions = Action::ACTIONS.iter().filter(|action| action.attributes().level <= level);
    actions.map(|action| 1 << *action as u32).sum()
}
