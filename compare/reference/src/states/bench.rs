//! The bench crafts of the scope's paper.

use super::fields::set;
use super::mode::Mode;
use crate::formulas::plain_context;
use crafty::Action::{self, *};
use crafty::CraftContext;

/// A context, a mode and a list.
pub type Craft = (CraftContext, Mode, &'static [Action]);

/// The context of the bench crafts.
pub fn bench() -> CraftContext {
    CraftContext { action_pool: set((1 << 31) - 1), ..plain_context() }
}

pub fn expert(cp_max: u32) -> CraftContext {
    CraftContext { is_expert: true, ..with_cp(cp_max) }
}

pub fn with_cp(cp_max: u32) -> CraftContext {
    CraftContext { cp_max, ..bench() }
}

pub fn with_durability(durability_max: i8) -> CraftContext {
    CraftContext { durability_max, ..bench() }
}

pub fn crafts() -> [Craft; 17] {
    let quick = CraftContext { progress_target: 300, ..with_durability(20) };
    let novice = CraftContext { player_job_level: 10, ..bench() };
    let short = CraftContext { step_max: 1, ..bench() };
    [
        (bench(), Mode::Plain, &[BasicTouch, StandardTouch, AdvancedTouch]),
        (with_cp(49), Mode::Plain, &[BasicTouch, StandardTouch]),
        (with_cp(50), Mode::Plain, &[BasicTouch, StandardTouch]),
        (bench(), Mode::Plain, &[QuickInnovation, Reflect]),
        (expert(200), Mode::Plain, &[BasicTouch, ByregotsBlessing]),
        (expert(200), Mode::Strict, &[BasicTouch, ByregotsBlessing]),
        (bench(), Mode::Plain, &[BasicTouch, Manipulation, QuickInnovation]),
        (with_durability(1), Mode::Plain, &[PreparatoryTouch]),
        (with_durability(19), Mode::Plain, &[Groundwork]),
        (with_durability(20), Mode::Plain, &[Groundwork]),
        (quick, Mode::Plain, &[Groundwork]),
        (with_cp(0), Mode::Plain, &[]),
        (expert(25), Mode::Strict, &[Observe]),
        (with_cp(250), Mode::Strict, &[TrainedEye]),
        (novice, Mode::Plain, &[BasicTouch]),
        (short, Mode::Plain, &[]),
        (bench(), Mode::Plain, &[Observe, AdvancedTouch, BasicTouch, RefinedTouch]),
    ]
}
