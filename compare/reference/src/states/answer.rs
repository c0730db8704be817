//! The answer of a state: the start of its craft, moves, results and score, and every step from it.

use super::fields::words;
use super::limits::{checked_context, checked_state};
use super::line::Numbers;
use super::mode::Mode;
use super::result::{self, hex};
use crate::actions::known;
use crate::refusal::{line, Refusal};
use crafty::CraftState;

/// One more than there are actions, so that an unknown one is asked for too.
const STEPS: u32 = 32;

type Given<T> = Result<T, Refusal>;

pub fn answer(numbers: &Numbers) -> String {
    let context = checked_context(numbers);
    let context = borrowed(&context);
    let state = context.and_then(|context| checked_state(numbers, context));
    let state = borrowed(&state);
    let in_modes = Mode::BOTH.map(|mode| (mode, state.map(|state| mode.with_moves(state))));

    let mut parts = vec![line(context.map(|context| words(&CraftState::new(context))))];
    parts.extend(in_modes.iter().map(|(_, state)| line(borrowed(state).map(moves))));
    parts.extend(in_modes.iter().map(|(_, state)| line(borrowed(state).map(judged))));
    parts.push(line(state.map(score)));
    for (mode, state) in &in_modes {
        parts.extend((0..STEPS).map(|number| step(*mode, borrowed(state), number)));
    }
    parts.join("; ")
}

/// What a part of the answer says.
pub fn part(place: usize) -> String {
    let first = ["start", "plain moves", "strict moves", "plain result", "strict result", "score"];
    let Some(step) = place.checked_sub(first.len()) else { return first[place].to_string() };
    let steps = STEPS as usize;
    format!("{} step of action {}", Mode::BOTH[step / steps], step % steps)
}

fn borrowed<T>(given: &Given<T>) -> Given<&T> {
    given.as_ref().map_err(|refusal| *refusal)
}

fn moves(state: &CraftState) -> u32 {
    state.available_moves.bits()
}

fn judged(state: &CraftState) -> String {
    result::words(&state.check_result())
}

/// Of any state: the Rust chooses between its two scores where a craft is finished.
fn score(state: &CraftState) -> String {
    hex(if state.context.quality_target > 0 { state.score() } else { state.score_no_quality() })
}

/// A move that is not legal is a dash, so that lines stay short.
fn step(mode: Mode, state: Given<&CraftState>, number: u32) -> String {
    match state.and_then(|state| stepped(mode, state, number)) {
        Err(Refusal::IllegalMove) => "-".to_string(),
        answer => line(answer),
    }
}

fn stepped(mode: Mode, state: &CraftState, number: u32) -> Given<String> {
    let action = known(number, 0)?;
    if !state.available_moves.contains(action) {
        return Err(Refusal::IllegalMove);
    }
    Ok(words(&mode.execute(state, action)))
}
