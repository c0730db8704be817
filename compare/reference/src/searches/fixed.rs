//! The fixed searches: every edge of an option, every refusal at its boundary, and every two that meet.

use super::call::Call;
use super::contexts::even;
use super::early::WRONGS;
use super::generate::Case;
use super::logarithms::{self, Logarithms, LOGARITHMS, LOGARITHM_MOST};
use super::options::{Options, EXPLORATIONS, ITERATIONS_MOST, THRESHOLDS, WEIGHTINGS};
use super::rust::Run;
use crate::outside::{in_words, last_inside, one_or_two};
use crate::random::Random;
use crate::states::bench::{bench, expert, with_cp, with_durability};
use crate::states::fields::{self, context_numbers, set};
use crate::thresholds::players;
use crate::trees::{LEAST, NANS};
use crafty::CraftContext;
use std::sync::Arc;

const SEED: u32 = 1;
/// As many records as the index of crates/search has room for.
const INDEXED: usize = 16_384;
/// So many searches of each craft whose tree is larger.
const LARGE: u32 = 2;
/// So few that each draw, record and place of the path can be wrong in turn.
const FEW: u32 = 5;

pub fn cases() -> impl Iterator<Item = Case> {
    let runs = crafts().into_iter().flat_map(|context| whole(&context));
    runs.chain(past_index())
        .chain(few().into_iter().flat_map(|run| boundaries(&run)))
        .chain(outside())
        .chain(before_work())
}

/// The usual, with paths stored.
fn options(iterations: u32) -> Options {
    Options { iterations, threshold: 0.0, weighting: 0.1, exploration: 1.5 }
}

/// Bench crafts and a player's; three that are over at their start; the fewest steps and the most.
fn crafts() -> Vec<CraftContext> {
    let steps = |step_max: u8| CraftContext { step_max, ..bench() };
    vec![
        bench(),
        expert(200),
        with_cp(0),
        with_durability(97),
        players(70, 15),
        CraftContext { progress_target: 0, ..bench() },
        CraftContext { action_pool: set(0), ..bench() },
        steps(1),
        steps(2),
        steps(255),
    ]
}

/// Every edge of each option, one at a time.
fn whole(context: &CraftContext) -> Vec<Case> {
    let usual = options(100);
    let mut all: Vec<Options> =
        [0, 1, 2, ITERATIONS_MOST - 1, ITERATIONS_MOST].map(options).to_vec();
    all.extend(THRESHOLDS.map(|threshold| Options { threshold, ..usual }));
    all.extend(WEIGHTINGS.map(|weighting| Options { weighting, ..usual }));
    all.extend(EXPLORATIONS.map(|exploration| Options { exploration, ..usual }));
    let run = |options| Run::new(context, options, SEED);
    all.into_iter().map(run).map(|run| Case::new(Call::of(&run), &run)).collect()
}

/// Every rollout has the same score, which is the threshold, and is stored.
fn past_index() -> Vec<Case> {
    let case = |context: &CraftContext, seed| {
        let run = Run::at_threshold(context, options(ITERATIONS_MOST), seed);
        assert!(run.grown.records.len() > INDEXED, "a tree within the index");
        Case::new(Call::of(&run), &run)
    };
    let crafts = [even(4, 9, 20), even(5, 9, 20), even(5, 10, 20)];
    let seeds = SEED..SEED + LARGE;
    crafts.iter().flat_map(|context| seeds.clone().map(move |seed| case(context, seed))).collect()
}

/// One that stores whole paths, and one that stores none.
fn few() -> [Run; 2] {
    let runs = [
        Run::new(&even(5, 4, 8), options(FEW), SEED),
        Run::new(&expert(200), Options { threshold: 1.0, ..options(FEW) }, SEED),
    ];
    assert!(runs[0].grown.records.len() > FEW as usize + 1, "no path is stored");
    runs
}

fn boundaries(run: &Run) -> Vec<Case> {
    let mut calls = vec![Call::of(run)];
    calls.extend(cut(run));
    calls.extend(raised(run));
    calls.into_iter().map(|call| Case::new(call, run)).collect()
}

/// Every number of draws with every number of records, and every room of the path, also with a record too few.
fn cut(run: &Run) -> Vec<Call> {
    let whole = Call::of(run);
    let mut calls = Vec::new();
    for draws in 0..=whole.draws.len() {
        for records in 0..=whole.records + 1 {
            let draws = whole.draws[..draws].to_vec();
            calls.push(Call { draws, records, ..whole.clone() });
        }
    }
    for room in 0..=whole.room + 1 {
        for records in whole.records - 1..=whole.records {
            calls.push(Call { room, records, ..whole.clone() });
        }
    }
    calls
}

/// Each draw at the size of its set, and at the most that a byte is, with every number of draws and of records.
fn raised(run: &Run) -> Vec<Call> {
    let whole = Call::of(run);
    let mut calls = Vec::new();
    for place in 0..whole.draws.len() {
        for draw in [run.grown.draws[place].end as u8, u8::MAX] {
            let mut raised = whole.clone();
            raised.draws[place] = draw;
            let few = |records| Call { records, ..raised.clone() };
            calls.extend((0..=whole.records).map(few));
            let cut = |draws| Call { draws: raised.draws[..draws].to_vec(), ..raised.clone() };
            calls.extend((0..whole.draws.len()).map(cut));
        }
    }
    calls
}

/// Each field of the context at its limits, where it is searched, and outside, also every two.
fn outside() -> Vec<Case> {
    let context = context_numbers(&bench());
    let run = |context: &CraftContext| Run::new(context, options(FEW), SEED);
    let inside = last_inside(&context, &in_words()).into_iter().map(|numbers| {
        let run = run(&fields::context(&numbers));
        Case::new(Call::of(&run), &run)
    });
    let run = run(&bench());
    let outside = one_or_two(&context, &in_words()).into_iter();
    let outside = outside.map(|context| Case::new(Call { context, ..Call::of(&run) }, &run));
    inside.chain(outside).collect()
}

/// Each wrong alone and with each other, and tables at their edges.
fn before_work() -> Vec<Case> {
    let run = Run::new(&bench(), options(FEW), SEED);
    let random = &mut Random::numbered(u64::from(SEED), 0);
    let mut calls: Vec<Call> =
        tables().into_iter().map(|table| Call { logarithms: table, ..Call::of(&run) }).collect();
    for (_, first) in WRONGS {
        for (_, second) in WRONGS {
            // some values of each
            for _ in 0..8 {
                let mut call = Call::of(&run);
                first(random, &mut call);
                second(random, &mut call);
                calls.push(call);
            }
        }
    }
    calls.into_iter().map(|call| Case::new(call, &run)).collect()
}

/// Values inside and outside their limits, at places that so few iterations do not come to, and minus zero for 0.
fn tables() -> Vec<Logarithms> {
    let own = logarithms::own();
    let mut tables: Vec<Logarithms> =
        [0, 1, LOGARITHMS - 1, LOGARITHMS].map(|length| Arc::new(own[..length].to_vec())).to_vec();
    let inside = [0.0, -0.0, LEAST, LOGARITHM_MOST];
    let outside = [-LEAST, LOGARITHM_MOST.next_up(), f32::INFINITY, f32::NEG_INFINITY];
    for number in inside.into_iter().chain(outside).chain(NANS) {
        for place in [FEW as usize, LOGARITHMS - 2, LOGARITHMS - 1, LOGARITHMS] {
            let mut table = own.to_vec();
            table.push(0.0);
            table[place] = number;
            tables.push(Arc::new(table));
        }
    }
    let mut table = own.to_vec();
    table[0] = -0.0;
    tables.push(Arc::new(table));
    tables
}
