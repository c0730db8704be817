//! What the Rust's search answers for a player's craft, by the score from which on it stores a whole rollout.

use crate::states::result::{self, RESULTS};
use crafty::{CraftContext, CraftOptions, Player, Recipe, SearchOptions, Simulator};

/// The first is the default.
const THRESHOLDS: [f32; 3] = [1.0, 0.2, 0.0];
/// As many as request E7 allows of ours.
const ITERATIONS: u32 = 4_096;

/// What one search answers.
struct Found {
    actions: usize,
    result: &'static str,
    max_score: f32,
    nodes: usize,
}

/// Of COUNT searches at each threshold, with seeds from `seed` on.
pub fn print(seed: u64, count: u64) {
    let context = players(70, 30);
    for threshold in THRESHOLDS {
        let seeds = seed..seed + count;
        let found: Vec<Found> = seeds.map(|seed| search(&context, seed, threshold)).collect();
        print_found(threshold, &found);
    }
    println!(
        "thresholds: {count} searches of {ITERATIONS} iterations at each, seeds from {seed} on"
    );
}

fn search(context: &CraftContext, seed: u64, threshold: f32) -> Found {
    let options = SearchOptions {
        iterations: ITERATIONS,
        rng_seed: Some(seed as u32),
        score_storage_threshold: Some(threshold),
        ..SearchOptions::default()
    };
    let (actions, state, search) = Simulator::search_logged(context, options);
    let result = result::name(&state.check_result());
    let nodes = search.tree().nodes.len();
    Found { actions: actions.len(), result, max_score: state.max_score, nodes }
}

fn print_found(threshold: f32, found: &[Found]) {
    let count = |holds: &dyn Fn(&Found) -> bool| found.iter().filter(|one| holds(one)).count();
    let results = RESULTS.map(|result| (result, count(&|one| one.result == result)));
    let met: Vec<String> = results
        .into_iter()
        .filter(|(_, count)| *count > 0)
        .map(|(result, count)| format!("{result} {count}"))
        .collect();
    println!(
        "threshold {threshold:.1}: lists of {}; {}; max_score 0 in {}; {} nodes",
        range(found.iter().map(|one| one.actions)),
        met.join(", "),
        count(&|one| one.max_score == 0.0),
        range(found.iter().map(|one| one.nodes))
    );
}

fn range(numbers: impl Iterator<Item = usize> + Clone) -> String {
    format!("{} to {}", numbers.clone().min().unwrap_or(0), numbers.max().unwrap_or(0))
}

/// As a player of the highest level has it.
pub fn players(durability: i8, max_steps: u8) -> CraftContext {
    let recipe = Recipe {
        recipe_level: 690,
        job_level: 100,
        stars: 0,
        progress: 6_600,
        quality: 12_000,
        durability,
        progress_div: 170,
        progress_mod: 90,
        quality_div: 150,
        quality_mod: 75,
        is_expert: false,
        conditions_flag: 15,
    };
    let options = CraftOptions {
        max_steps,
        player_is_specialist: true,
        use_manipulation: true,
        use_delineation: true,
        ..CraftOptions::default()
    };
    CraftContext::new(&Player::new(100, 4_800, 4_500, 580), &recipe, options)
}
