//! The line of a replay; its layout stands in docs/COMPARISON.md.

use crate::case::mark;
use crate::states::fields::{context_numbers, ContextNumbers};
use crate::states::line::line;
use crate::states::mode::Mode;
use crafty::{Action, CraftContext};

pub const LIST_MOST: usize = 300;
/// The unknown actions that a line can say.
pub const UNKNOWN_LEAST: u32 = 31;
pub const UNKNOWN_MOST: u32 = 63;
const KIND: &str = "23";

/// Of a list that may hold unknown numbers, in a context that may be outside its limits.
pub struct Replay {
    pub context: ContextNumbers,
    pub mode: Mode,
    pub list: Vec<u32>,
}

impl Replay {
    pub fn new(context: &CraftContext, mode: Mode, actions: &[Action]) -> Replay {
        let list = actions.iter().map(|action| *action as u32).collect();
        Replay { context: context_numbers(context), mode, list }
    }
}

pub fn write(replay: &Replay) -> Vec<u8> {
    let mut numbers = replay.context.to_vec();
    numbers.extend([replay.mode as u32, replay.list.len() as u32]);
    let list: Vec<u8> = replay.list.iter().map(|number| mark(*number) as u8).collect();
    line(KIND, &numbers, &list)
}
