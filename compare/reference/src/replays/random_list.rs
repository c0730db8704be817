//! Random lists: the moves of a craft on its way, with a slip now and then, cut, or going on past the end.

use super::line::LIST_MOST;
use crate::random::Random;
use crate::states::mode::Mode;
use crate::states::random_state::next_move;
use crafty::{Action, CraftContext, CraftResult, CraftState};

pub const MENDS: [Action; 3] = [Action::MastersMend, Action::Manipulation, Action::ImmaculateMend];
/// A craft so worn is mostly mended.
const WORN: i8 = 20;

pub fn list(random: &mut Random, context: &CraftContext, mode: Mode) -> Vec<Action> {
    let mut list = way(random, context, mode);
    if random.one_in(4) {
        let room = LIST_MOST - list.len();
        let more = random.between(0, room as u32);
        list.extend((0..more).map(|_| random.any(Action::ACTIONS)));
    }
    list
}

/// Up to the craft's end or to a length; a slip that is not legal leaves the craft as it was.
fn way(random: &mut Random, context: &CraftContext, mode: Mode) -> Vec<Action> {
    let length = length(random);
    let slips = random.one_in(3);
    let mut state = mode.start(context);
    let mut list = Vec::new();
    while list.len() < length {
        let is_slip = slips && random.one_in(16);
        let chosen =
            if is_slip { Some(random.any(Action::ACTIONS)) } else { legal(random, mode, &state) };
        let Some(action) = chosen else { break };
        if state.available_moves.contains(action) {
            state = mode.execute(&state, action);
        }
        list.push(action);
    }
    list
}

/// Mostly more than any craft has.
fn length(random: &mut Random) -> usize {
    match random.below(16) {
        0 => 0,
        1..=3 => random.between(1, 20) as usize,
        4 => random.place(LIST_MOST),
        _ => LIST_MOST,
    }
}

/// A mend where the craft is worn, and else mostly a move that leaves it others, so that it goes on.
fn legal(random: &mut Random, mode: Mode, state: &CraftState) -> Option<Action> {
    let mends = MENDS.into_iter().filter(|mend| state.available_moves.contains(*mend));
    let mends: Vec<Action> = mends.collect();
    if state.durability <= WORN && !mends.is_empty() && !random.one_in(16) {
        return Some(random.any(&mends));
    }
    let chosen = next_move(random, state)?;
    if is_dead_end(&mode.execute(state, chosen)) && !random.one_in(8) {
        let mut others = state.clone();
        others.available_moves.unset(chosen);
        return next_move(random, &others).or(Some(chosen));
    }
    Some(chosen)
}

fn is_dead_end(state: &CraftState) -> bool {
    matches!(state.check_result(), Some(CraftResult::InvalidActionFailure))
}
