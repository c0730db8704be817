//! The answer of a replay: state, moves, result and how many actions were executed, or a refusal.

use super::line::Replay;
use super::report::{checked_list, report};
use crate::refusal::{line, Refusal};
use crate::states::fields::words;
use crate::states::limits::checked_context;
use crate::states::result;

/// What the parts of an answer say.
pub const PARTS: [&str; 4] = ["state", "moves", "result", "executed"];

pub fn answer(replay: &Replay) -> String {
    line(reported(replay))
}

fn reported(replay: &Replay) -> Result<String, Refusal> {
    let context = checked_context(&replay.context)?;
    let actions = checked_list(replay)?;
    let report = report(&context, replay.mode, actions);
    let parts = [
        words(&report.state),
        report.state.available_moves.bits().to_string(),
        result::words(&report.result),
        format!("executed {}", report.executed),
    ];
    Ok(parts.join("; "))
}
