//! The two modes of a craft, which are pairs of functions in the Rust.

use crafty::{Action, CraftContext, CraftState};
use std::fmt;

#[derive(Clone, Copy, PartialEq, Eq, Hash)]
pub enum Mode {
    Plain,
    Strict,
}

impl Mode {
    pub const BOTH: [Mode; 2] = [Mode::Plain, Mode::Strict];

    pub fn start(self, context: &CraftContext) -> CraftState<'_> {
        match self {
            Mode::Plain => CraftState::new(context),
            Mode::Strict => CraftState::new_strict(context),
        }
    }

    pub fn with_moves<'a>(self, state: &CraftState<'a>) -> CraftState<'a> {
        state.with_moves(self == Mode::Strict)
    }

    pub fn execute<'a>(self, state: &CraftState<'a>, action: Action) -> CraftState<'a> {
        match self {
            Mode::Plain => state.execute(&action),
            Mode::Strict => state.execute_strict(&action),
        }
    }
}

impl fmt::Display for Mode {
    fn fmt(&self, out: &mut fmt::Formatter) -> fmt::Result {
        out.write_str(if *self == Mode::Plain { "plain" } else { "strict" })
    }
}
