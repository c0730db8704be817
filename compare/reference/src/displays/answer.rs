//! The answer of a Display line: its length, or a refusal, and the whole room.

use super::line::ROOM;
use crate::refusal::Refusal;
use crate::room;
use crate::states::limits::{checked_context, checked_state};
use crate::states::Numbers;

pub fn answer(numbers: &Numbers) -> String {
    room::line(numbers[ROOM], displayed(numbers))
}

fn displayed(numbers: &Numbers) -> Result<String, Refusal> {
    let context = checked_context(numbers)?;
    let state = checked_state(numbers, &context)?;
    Ok(state.to_string())
}
