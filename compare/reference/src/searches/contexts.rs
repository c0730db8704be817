//! Crafts to search: any inside the limits, players' own, and those that are over before they begin.

use crate::random::Random;
use crate::states::bench::bench;
use crate::states::fields::set;
use crate::states::random_context;
use crate::thresholds::players;
use crafty::{Action, ActionSet, CraftContext};

/// With a step_max above 0, without which there is no search.
pub fn context(random: &mut Random) -> CraftContext {
    let context = match random.below(8) {
        0 => no_search(random),
        1 => of_steps(random),
        2 => any_even(random),
        3 | 4 => players(random.any(&[35, 40, 60, 70, 80]), random.between(8, 50) as u8),
        _ => random_context::context(random),
    };
    CraftContext { step_max: context.step_max.max(1), ..context }
}

/// Finished or failed at the start, or with no move there.
fn no_search(random: &mut Random) -> CraftContext {
    let context = random_context::context(random);
    match random.below(4) {
        0 => CraftContext { progress_target: 0, ..context },
        1 => CraftContext { step_max: 1, ..context },
        2 => CraftContext { action_pool: set(0), ..context },
        _ => {
            CraftContext { cp_max: 0, action_pool: set(1 << Action::Veneration as u32), ..context }
        }
    }
}

fn any_even(random: &mut Random) -> CraftContext {
    let moves = random.between(1, 5) as usize;
    even(moves, random.between(2, 9), random.between(12, 60) as u8)
}

/// Of the fewest steps, or of the most.
fn of_steps(random: &mut Random) -> CraftContext {
    let step_max = random.any(&[1, 2, 3, 254, 255]);
    CraftContext { step_max, ..random_context::context(random) }
}

/// Each of its moves, which are up to five, brings the same progress, and steps alone are scored: where there are steps
/// enough, every rollout finishes, and with the same score.
pub fn even(moves: usize, progress_target: u32, step_max: u8) -> CraftContext {
    use Action::*;
    let all = [
        BasicSynthesis,
        BasicSynthesisTraited,
        CarefulSynthesis,
        CarefulSynthesisTraited,
        PrudentSynthesis,
    ];
    CraftContext {
        base_progress_factor: 1,
        progress_target,
        quality_target: 0,
        step_max,
        durability_max: 97,
        action_pool: ActionSet::from_vec(&all[..moves].to_vec()),
        ..bench()
    }
}
