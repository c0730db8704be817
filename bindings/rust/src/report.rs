//! What a replay reports, from its numbers.

use crate::lent::NUMBERS;

/// How many of a report's numbers are the state's, which come last.
pub(crate) const STATE_NUMBERS: usize = 17;

/// Where a replay stopped.
#[derive(Clone, Copy, Debug, PartialEq)]
pub struct Report {
    pub outcome: Outcome,
    /// How many actions were executed: the longest leading part of the list that is legal.
    pub executed: usize,
    /// The moves of the state, bit n for action n.
    pub moves: u32,
    pub state: State,
}

#[derive(Clone, Copy, Debug, PartialEq)]
pub enum Outcome {
    /// The score: below 1, and at least -1 where step_max is above 0; minus infinity where that is 0.
    Finished(f32),
    DurabilityFailure,
    MaxStepsFailure,
    /// No move is left, or an action was not among the moves.
    InvalidActionFailure,
    /// The list ended first.
    Continuing,
}

#[derive(Clone, Copy, Debug, PartialEq, Eq)]
pub struct State {
    pub step: u8,
    pub progress: u32,
    pub quality: u32,
    pub durability: i8,
    pub cp: u32,
    pub combo: Combo,
    pub quick_innovation_available: bool,
    pub trained_perfection: Perfection,
    pub buffs: Buffs,
    pub last_action: Option<u8>,
}

/// The action before, where it opens a combo.
#[derive(Clone, Copy, Debug, PartialEq, Eq)]
pub enum Combo {
    Nothing,
    BasicTouch,
    StandardTouch,
    RefinedTouch,
    Observe,
}

#[derive(Clone, Copy, Debug, PartialEq, Eq)]
pub enum Perfection {
    Unused,
    Active,
    Spent,
}

#[derive(Clone, Copy, Debug, PartialEq, Eq)]
pub struct Buffs {
    pub inner_quiet: u8,
    pub waste_not: u8,
    pub waste_not_ii: u8,
    pub manipulation: u8,
    pub great_strides: u8,
    pub innovation: u8,
    pub veneration: u8,
    pub muscle_memory: u8,
}

impl Report {
    /// The archive is proved to write numbers of this shape only.
    pub(crate) fn from_numbers(numbers: &[u32; NUMBERS]) -> Report {
        let mut state = [0; STATE_NUMBERS];
        state.copy_from_slice(&numbers[NUMBERS - STATE_NUMBERS..]);
        Report {
            outcome: outcome(numbers[0], numbers[1]),
            executed: numbers[2] as usize,
            moves: numbers[3],
            state: State::from_numbers(&state),
        }
    }
}

impl State {
    /// The same is proved of these.
    pub(crate) fn from_numbers(numbers: &[u32; STATE_NUMBERS]) -> State {
        State {
            step: numbers[0] as u8,
            progress: numbers[1],
            quality: numbers[2],
            durability: numbers[3] as i8,
            cp: numbers[4],
            combo: combo(numbers[5]),
            quick_innovation_available: numbers[6] == 1,
            trained_perfection: perfection(numbers[7]),
            buffs: buffs(&numbers[8..16]),
            last_action: Some(numbers[16] as u8).filter(|last| *last < 31),
        }
    }
}

fn outcome(number: u32, score: u32) -> Outcome {
    match number {
        0 => Outcome::Finished(f32::from_bits(score)),
        1 => Outcome::DurabilityFailure,
        2 => Outcome::MaxStepsFailure,
        3 => Outcome::InvalidActionFailure,
        4 => Outcome::Continuing,
        _ => unreachable!("no result has the number {number}"),
    }
}

fn combo(number: u32) -> Combo {
    match number {
        0 => Combo::Nothing,
        1 => Combo::BasicTouch,
        2 => Combo::StandardTouch,
        3 => Combo::RefinedTouch,
        4 => Combo::Observe,
        _ => unreachable!("no combo has the number {number}"),
    }
}

fn perfection(number: u32) -> Perfection {
    match number {
        0 => Perfection::Unused,
        1 => Perfection::Active,
        2 => Perfection::Spent,
        _ => unreachable!("no perfection has the number {number}"),
    }
}

fn buffs(numbers: &[u32]) -> Buffs {
    Buffs {
        inner_quiet: numbers[0] as u8,
        waste_not: numbers[1] as u8,
        waste_not_ii: numbers[2] as u8,
        manipulation: numbers[3] as u8,
        great_strides: numbers[4] as u8,
        innovation: numbers[5] as u8,
        veneration: numbers[6] as u8,
        muscle_memory: numbers[7] as u8,
    }
}
