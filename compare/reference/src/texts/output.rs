//! What a replay tells, from the Rust: its lines as text, and its numbers.

use super::call::Call;
use super::input::{self, Input};
use super::lists::known_list;
use crate::refusal::Refusal;
use crate::replays::report::{report, Report};
use crate::states::fields::told_numbers;
use crate::states::mode::Mode;
use crate::states::result::{self, RESULTS};
use crafty::CraftResult;

/// The state's line at the start and after each action executed, and the line of the result.
pub fn text(input: &[u8]) -> Result<Vec<u8>, Refusal> {
    let Input { context, actions } = input::read(input)?;
    let report = report(&context, Mode::Plain, actions.clone());
    let mut state = Mode::Plain.start(&context);
    let mut lines = format!("{state}\n");
    for action in &actions[..report.executed] {
        state = Mode::Plain.execute(&state, *action);
        lines += &format!("{state}\n");
    }
    let result = result::words(&report.result);
    lines += &format!("{result} executed {} of {}\n", report.executed, actions.len());
    Ok(lines.into_bytes())
}

/// What the program `replay` prints.
pub fn printed(input: &[u8]) -> Vec<u8> {
    let refused = |refusal: Refusal| format!("refused {}\n", refusal.number()).into_bytes();
    text(input).unwrap_or_else(refused)
}

/// The result, the score's bits, the number executed, the moves, and the state's seventeen fields.
pub fn numbers(call: &Call) -> Result<Vec<u8>, Refusal> {
    let context = input::context(&call.context.map(u64::from))?;
    let actions = known_list(&call.input)?;
    let report = report(&context, call.mode, actions);
    let mut numbers = ended(&report).to_vec();
    numbers.extend(told_numbers(&report.state));
    Ok(numbers.into_iter().flat_map(u32::to_le_bytes).collect())
}

fn ended(report: &Report) -> [u32; 4] {
    let name = result::name(&report.result);
    let result = RESULTS.iter().position(|result| *result == name).expect("a result") as u32;
    let score = match report.result {
        Some(CraftResult::Finished(score)) => score.to_bits(),
        _ => 0,
    };
    [result, score, report.executed as u32, report.state.available_moves.bits()]
}
