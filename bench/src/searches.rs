//! Searches, on the draws that the Rust's generator gives the Rust.

use crate::crafts::ours;
use crate::measure::{compare, timed, Figure};
use crate::trees::records;
use brothlantern::search::{logarithms, search, Found, SearchOptions, LOGARITHMS};
use brothlantern::tree::Node;
use brothlantern::Context;
use crafty::{CraftContext, CraftState, Simulator};

const ITERATIONS: [u32; 2] = [1_000, 4_096];
/// Searches in turn, so that no branch is learned by heart.
const SEEDS: u32 = 8;
/// A path has no more actions than the craft has steps.
const STEPS: usize = 255;

/// A search, and what it uses: the draws, and as many records.
struct Given {
    rust: crafty::SearchOptions,
    draws: Vec<u8>,
    nodes: Vec<Node>,
}

/// What ours is lent for all of them.
struct Lent {
    context: Context,
    options: SearchOptions,
    logarithms: [f32; LOGARITHMS],
    out: [u8; STEPS],
}

/// For each craft with fewer and with more iterations.
pub fn measure(rounds: usize, crafts: &[(&str, CraftContext)]) -> Vec<Figure> {
    let mut figures = Vec::new();
    for (name, context) in crafts {
        for iterations in ITERATIONS {
            let name = format!("search of {iterations}, {name}");
            figures.push(measure_one(name, context, iterations, rounds));
        }
    }
    figures
}

/// Ours writes into lent records; the Rust makes its own.
fn measure_one(name: String, context: &CraftContext, iterations: u32, rounds: usize) -> Figure {
    let options = SearchOptions { iterations, ..SearchOptions::default() };
    let (logarithms, out) = (logarithms(), [0; STEPS]);
    let mut lent = Lent { context: ours(context), options, logarithms, out };
    let mut given: Vec<Given> = (0..SEEDS).map(|seed| given(context, &options, seed)).collect();
    given.iter_mut().for_each(|given| check_same(context, &mut lent, given));
    let seeds: Vec<crafty::SearchOptions> = given.iter().map(|given| given.rust).collect();
    compare(
        name,
        rounds,
        |calls| {
            timed((0..calls).collect(), |call| {
                sum(our_numbers(&lent.search(&mut given[call % SEEDS as usize])))
            })
        },
        |calls| {
            timed(seeds.iter().cycle().take(calls).collect(), |options| {
                let (path, state) = Simulator::search_oneshot(context, Vec::new(), *options);
                sum(rust_numbers(path.len(), &state))
            })
        },
    )
}

impl Lent {
    fn search(&mut self, given: &mut Given) -> Found {
        let Lent { context, options, logarithms, out } = self;
        search(context, options, logarithms, &given.draws, &mut given.nodes, out)
            .expect("all that is used is lent")
    }
}

fn given(context: &CraftContext, options: &SearchOptions, seed: u32) -> Given {
    let rust = crafty::SearchOptions {
        iterations: options.iterations,
        rng_seed: Some(seed),
        score_storage_threshold: Some(options.score_storage_threshold),
        max_score_weighting_constant: Some(options.max_score_weighting_constant),
        exploration_constant: Some(options.exploration_constant),
    };
    let (_, _, search) = Simulator::search_logged(context, rust);
    let draws = search.draws().iter().map(|draw| draw.number as u8).collect();
    Given { rust, draws, nodes: vec![Node::default(); search.tree().nodes.len()] }
}

/// Every record, every draw, the path and the state.
fn check_same(context: &CraftContext, lent: &mut Lent, given: &mut Given) {
    let found = lent.search(given);
    let (path, state, search) = Simulator::search_logged(context, given.rust);
    assert!(records(&search) == given.nodes, "the records differ");
    assert_eq!(found.progress.draws, given.draws.len(), "the draws differ");
    assert_eq!(our_numbers(&found), rust_numbers(path.len(), &state), "the states differ");
    let path: Vec<u8> = path.into_iter().map(|action| action as u8).collect();
    assert_eq!(lent.out[..found.path], path, "the paths differ");
}

/// The length of the path, and of the state there step, progress, quality, durability and points.
fn our_numbers(found: &Found) -> [u32; 6] {
    let state = &found.state;
    let (step, durability) = (u32::from(state.step), state.durability as u32);
    [found.path as u32, step, state.progress, state.quality, durability, state.cp]
}

fn rust_numbers(path: usize, state: &CraftState) -> [u32; 6] {
    let (step, durability) = (u32::from(state.step), state.durability as u32);
    [path as u32, step, state.progress, state.quality, durability, state.cp]
}

/// Of these: what two different answers hardly share.
fn sum(numbers: [u32; 6]) -> u64 {
    numbers.iter().copied().map(u64::from).sum()
}
