//! Random replays: mostly of legal lists, now and then with an unknown action or a context outside its limits.

use super::line::{Replay, UNKNOWN_LEAST, UNKNOWN_MOST};
use super::random_list;
use crate::outside::{self, in_record};
use crate::random::Random;
use crate::states::mode::Mode;
use crate::states::random_context;
use crafty::CraftContext;

/// Replays by their number in a run.
pub fn replays(seed: u64, count: u64) -> impl Iterator<Item = Replay> {
    (0..count).map(move |number| replay(&mut Random::numbered(seed, number)))
}

pub fn replay(random: &mut Random) -> Replay {
    let context = context(random);
    let mode = random.any(&Mode::BOTH);
    let mut replay = Replay::new(&context, mode, &random_list::list(random, &context, mode));
    if random.one_in(64) {
        push_unknown(random, &mut replay.list);
    }
    if random.one_in(64) {
        outside::push(random, &mut replay.context, &in_record());
    }
    replay
}

fn context(random: &mut Random) -> CraftContext {
    let context = random_context::context(random);
    if random.one_in(4) {
        return lasting(random, context);
    }
    context
}

/// A craft that can go on for hundreds of actions: far targets, many points and steps, and every mend.
fn lasting(random: &mut Random, context: CraftContext) -> CraftContext {
    let mut action_pool = context.action_pool;
    random_list::MENDS.iter().for_each(|mend| action_pool.set(*mend));
    CraftContext {
        base_progress_factor: random.between(1, 100),
        base_quality_factor: random.between(1, 100),
        step_max: random.between(40, 255) as u8,
        progress_target: random.between(100_000, random_context::AMOUNT_MOST),
        quality_target: random.between(100_000, random_context::AMOUNT_MOST),
        durability_max: random.between(50, 97) as i8,
        cp_max: random.between(5_000, random_context::AMOUNT_MOST),
        action_pool,
        use_manipulation: true,
        ..context
    }
}

/// At one or two places; an empty list gets one more.
fn push_unknown(random: &mut Random, list: &mut Vec<u32>) {
    if list.is_empty() {
        list.push(UNKNOWN_LEAST);
    }
    for _ in 0..random.between(1, 2) {
        let place = random.place(list.len());
        list[place] = random.between(UNKNOWN_LEAST, UNKNOWN_MOST);
    }
}
