//! What is crafted.

use brothlantern::Context;
use crafty::{Action, ActionSet, CraftContext, CraftOptions, Player, Recipe};

/// The greatest that a target or a player's points may be.
const MOST: u32 = 1_000_000;
/// The dearest action costs 250.
const FEW_POINTS: u32 = 180;

#[derive(Clone, Copy)]
pub enum Craft {
    /// Lasts for 250 actions: targets, points and steps are as great as the limits let them be.
    Lasting,
    /// The same, but with too few points for all of its actions.
    FewPoints,
    /// As a player of the highest level has it.
    Players,
}

impl Craft {
    /// In turn, where there are several of a kind.
    pub fn contexts(self) -> Vec<CraftContext> {
        match self {
            Craft::Lasting => vec![lasting(MOST)],
            Craft::FewPoints => vec![lasting(FEW_POINTS)],
            Craft::Players => [60, 70, 80].map(|durability| players(durability, 50)).to_vec(),
        }
    }

    /// What comes behind the length in the name of a case.
    pub fn note(self) -> &'static str {
        match self {
            Craft::Lasting => "",
            Craft::FewPoints => ", few points",
            Craft::Players => ", a player's",
        }
    }
}

/// As the page builds one, but for targets, points and steps.
fn lasting(points: u32) -> CraftContext {
    let recipe = Recipe { progress: MOST, quality: MOST, ..recipe(80) };
    CraftContext::new(&Player::new(100, 1_000, 1_000, points), &recipe, options(255))
}

/// A player's craft to search, by a name: the usual one, a shorter one, and one that is soon worn out.
pub fn searched() -> [(&'static str, CraftContext); 3] {
    [
        ("25 steps", players(70, 25)),
        ("15 steps", players(70, 15)),
        ("durability 40", players(40, 25)),
    ]
}

/// Crafts with trees of another kind, for which there is no goal: a beginner's small one, soon full of dead ends, and one in
/// which every rollout has the same score, so that each is stored whole.
pub fn searched_besides() -> [(&'static str, CraftContext); 2] {
    [("a beginner's", beginners()), ("equal scores", equal())]
}

fn beginners() -> CraftContext {
    let recipe = Recipe {
        recipe_level: 10,
        job_level: 10,
        progress: 39,
        quality: 150,
        progress_div: 50,
        progress_mod: 100,
        quality_div: 30,
        quality_mod: 100,
        ..recipe(60)
    };
    CraftContext::new(&Player::new(10, 60, 60, 180), &recipe, options(20))
}

/// Each move brings the same progress, and steps alone are scored.
fn equal() -> CraftContext {
    use Action::*;
    let moves = vec![
        BasicSynthesis,
        BasicSynthesisTraited,
        CarefulSynthesis,
        CarefulSynthesisTraited,
        PrudentSynthesis,
    ];
    CraftContext {
        base_progress_factor: 1,
        progress_target: 9,
        quality_target: 0,
        durability_max: 97,
        action_pool: ActionSet::from_vec(&moves),
        ..players(70, 20)
    }
}

fn players(durability: i8, max_steps: u8) -> CraftContext {
    CraftContext::new(&Player::new(100, 4_800, 4_500, 580), &recipe(durability), options(max_steps))
}

fn recipe(durability: i8) -> Recipe {
    Recipe {
        recipe_level: 690,
        job_level: 100,
        stars: 0,
        progress: 6_600,
        quality: 12_000,
        durability,
        progress_div: 170,
        progress_mod: 90,
        quality_div: 150,
        quality_mod: 75,
        is_expert: false,
        conditions_flag: 15,
    }
}

fn options(max_steps: u8) -> CraftOptions {
    CraftOptions {
        max_steps,
        player_is_specialist: true,
        use_manipulation: true,
        use_delineation: true,
        ..CraftOptions::default()
    }
}

pub fn ours(context: &CraftContext) -> Context {
    Context {
        player_job_level: context.player_job_level,
        recipe_job_level: context.recipe_job_level,
        base_progress_factor: context.base_progress_factor,
        base_quality_factor: context.base_quality_factor,
        step_max: context.step_max,
        progress_target: context.progress_target,
        starting_quality: context.starting_quality,
        quality_target: context.quality_target,
        durability_max: context.durability_max as u8,
        cp_max: context.cp_max,
        is_expert: context.is_expert,
        action_pool: context.action_pool.bits(),
        player_is_specialist: context.player_is_specialist,
        use_manipulation: context.use_manipulation,
        use_delineation: context.use_delineation,
    }
}
