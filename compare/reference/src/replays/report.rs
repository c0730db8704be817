//! What the Rust reports of a replay, or the refusal that it does not have.

use super::line::Replay;
use crate::actions::known;
use crate::refusal::Refusal;
use crate::states::mode::Mode;
use crafty::{Action, CraftContext, CraftResult, CraftState, Simulator};

/// The state where replay stopped, with its moves, the result, and how many actions were executed.
pub struct Report<'a> {
    pub state: CraftState<'a>,
    pub result: Option<CraftResult>,
    pub executed: usize,
}

pub fn report(context: &CraftContext, mode: Mode, actions: Vec<Action>) -> Report<'_> {
    match mode {
        Mode::Plain => {
            let executed = Simulator::executed(context, actions.clone());
            let (state, result) = Simulator::simulate(context, actions);
            Report { state, result, executed }
        }
        Mode::Strict => {
            let (state, result, executed) = Simulator::simulate_strict(context, actions);
            Report { state, result, executed }
        }
    }
}

/// The whole list is tested, also past the place where replay would stop.
pub fn checked_list(replay: &Replay) -> Result<Vec<Action>, Refusal> {
    replay.list.iter().enumerate().map(|(place, number)| known(*number, place)).collect()
}
