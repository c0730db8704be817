//! Answers of the builder, kind 21: the fifteen fields of the context, or refusal 1 with its place.

use crate::case::{Case, NUMBERS};
use crate::limits::{self, Limit, ANY, CONTEXT};
use crate::outside::{self, Side, WORD};
use crate::refusal::{line, Refusal};
use crate::states::fields::{
    context_numbers, CP_MAX, DURABILITY_MAX, PROGRESS_TARGET, QUALITY_TARGET, STARTING_QUALITY,
};
use crafty::{CraftContext, CraftOptions, Player, Recipe};

/// The weights of the flags in the last number of a case.
pub const SPECIALIST: u32 = 1;
pub const MANIPULATION: u32 = 2;
pub const DELINEATION: u32 = 4;
pub const HAS_STARTING_QUALITY: u32 = 8;
pub const HAS_QUALITY_TARGET: u32 = 16;
pub const EXPERT: u32 = 32;
pub const FLAGS: usize = NUMBERS - 1;

const STAT: Limit = 0..=10_000;
const DIV: Limit = 1..=1_000;
const MOD: Limit = 0..=200;
/// Those of the player's four fields and of the recipe's first ten, whose places are those of a case's numbers. The fields
/// behind them have no limit of their own.
const SHEET: [Limit; 14] = [ANY, STAT, STAT, ANY, ANY, ANY, ANY, ANY, ANY, ANY, DIV, MOD, DIV, MOD];
/// Before the built context's fields come the player's four, the recipe's twelve and the options' six.
const BUILT: usize = 4 + 12 + 6;

/// The numbers that go into the context as they are, with their fields there; of the two of quality_target the second goes
/// where it is given.
const TAKEN: [(usize, usize); 6] = [
    (3, CP_MAX),
    (7, PROGRESS_TARGET),
    (8, QUALITY_TARGET),
    (9, DURABILITY_MAX),
    (16, STARTING_QUALITY),
    (17, QUALITY_TARGET),
];

pub fn answer(case: &Case) -> String {
    line(built(&case.numbers))
}

fn built(numbers: &[u32; NUMBERS]) -> Result<String, Refusal> {
    limits::check(numbers, &SHEET, 0)?;
    let context = CraftContext::new(&player(numbers), &recipe(numbers), options(numbers));
    limits::check(&context_numbers(&context), &CONTEXT, BUILT)?;
    Ok(fields(&context))
}

/// The limits that the numbers of a case can pass.
pub fn sides() -> Vec<Side> {
    let own = SHEET.into_iter().enumerate();
    let taken = TAKEN.into_iter().map(|(number, field)| (number, CONTEXT[field].clone()));
    own.chain(taken).flat_map(|(number, limit)| outside::sides(number, limit, WORD)).collect()
}

fn player(numbers: &[u32; NUMBERS]) -> Player {
    Player::new(numbers[0], numbers[1], numbers[2], numbers[3])
}

fn recipe(numbers: &[u32; NUMBERS]) -> Recipe {
    Recipe {
        recipe_level: numbers[4],
        job_level: numbers[5],
        stars: numbers[6],
        progress: numbers[7],
        quality: numbers[8],
        durability: durability(numbers[9]),
        progress_div: numbers[10],
        progress_mod: numbers[11],
        quality_div: numbers[12],
        quality_mod: numbers[13],
        is_expert: numbers[FLAGS] & EXPERT != 0,
        conditions_flag: numbers[14],
    }
}

fn options(numbers: &[u32; NUMBERS]) -> CraftOptions {
    let flags = numbers[FLAGS];
    CraftOptions {
        max_steps: numbers[15] as u8,
        starting_quality: (flags & HAS_STARTING_QUALITY != 0).then_some(numbers[16]),
        quality_target: (flags & HAS_QUALITY_TARGET != 0).then_some(numbers[17]),
        player_is_specialist: flags & SPECIALIST != 0,
        use_manipulation: flags & MANIPULATION != 0,
        use_delineation: flags & DELINEATION != 0,
    }
}

/// Numbers have no sign in a case: three negative ones stand for all.
fn durability(number: u32) -> i8 {
    match number {
        0..=127 => number as i8,
        128 => -1,
        129 => -19,
        _ => -128,
    }
}

fn fields(context: &CraftContext) -> String {
    [
        context.player_job_level.to_string(),
        context.recipe_job_level.to_string(),
        context.base_progress_factor.to_string(),
        context.base_quality_factor.to_string(),
        context.step_max.to_string(),
        context.progress_target.to_string(),
        context.starting_quality.to_string(),
        context.quality_target.to_string(),
        context.durability_max.to_string(),
        context.cp_max.to_string(),
        u8::from(context.is_expert).to_string(),
        context.action_pool.bits().to_string(),
        u8::from(context.player_is_specialist).to_string(),
        u8::from(context.use_manipulation).to_string(),
        u8::from(context.use_delineation).to_string(),
    ]
    .join(" ")
}
