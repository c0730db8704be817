//! What is timed: a call, the craft and the lists that it gets, and how fast it shall be.

use crate::crafts::Craft;
use crate::lists::{list, Length, Lists, Random};
use crate::measure::Figure;
use crate::{replays, texts};
use brothlantern::Mode;
use crafty::{Action, CraftContext};

const LENGTHS: [usize; 4] = [1, 10, 40, 250];
/// For as many as the lengths, how many times as fast as the Rust they shall be, with lists in turn.
const PLAIN_GOALS: [f64; 4] = [6.0, 12.0, 9.0, 7.0];
const STRICT_GOALS: [f64; 4] = [5.0, 10.0, 9.0, 7.5];
const PLAYERS_TEXT_GOAL: f64 = 2.5;

#[derive(Clone, Copy)]
pub enum Call {
    Replay(Mode),
    Text,
}

#[derive(Clone, Copy)]
pub struct Case {
    call: Call,
    craft: Craft,
    length: Length,
    lists: Lists,
    /// How many times as fast as the Rust it shall be.
    pub goal: Option<f64>,
}

/// A craft, and a list that is executed whole in it.
pub type Given = (CraftContext, Vec<Action>);

impl Case {
    fn new(call: Call, craft: Craft, length: Length) -> Case {
        Case { call, craft, length, lists: Lists::InTurn, goal: None }
    }

    fn with_goal(self, goal: f64) -> Case {
        Case { goal: Some(goal), ..self }
    }

    /// The goals are for lists in turn.
    fn with_same_list(&self) -> Case {
        Case { lists: Lists::Same, goal: None, ..*self }
    }

    pub fn name(&self) -> String {
        let call = match self.call {
            Call::Replay(Mode::Plain) => "replay",
            Call::Replay(Mode::Strict) => "strict replay",
            Call::Text => "text to text",
        };
        format!("{call}{}{}{}", self.length.note(), self.craft.note(), self.lists.note())
    }

    pub fn given(&self) -> Vec<Given> {
        let strict = matches!(self.call, Call::Replay(Mode::Strict));
        let mut random = Random(self.length.seed());
        let contexts = self.craft.contexts();
        let given = |context: &CraftContext| {
            (context.clone(), list(&mut random, context, self.length, strict))
        };
        contexts.iter().cycle().take(self.lists.count()).map(given).collect()
    }

    pub fn measure(&self, rounds: usize) -> Figure {
        match self.call {
            Call::Replay(mode) => replays::measure(self, mode, rounds),
            Call::Text => texts::measure(self, rounds),
        }
    }

    /// Makes our calls alone.
    pub fn call(&self, calls: usize) {
        match self.call {
            Call::Replay(mode) => replays::call(self, mode, calls),
            Call::Text => texts::call(self, calls),
        }
    }
}

/// Each kind with lists in turn, and then with one list over and over.
pub fn all() -> Vec<Case> {
    let kinds = [
        replays(Mode::Plain, PLAIN_GOALS),
        replays(Mode::Strict, STRICT_GOALS),
        texts(),
        players_texts(),
    ];
    let twice = |cases: Vec<Case>| {
        let same_list: Vec<Case> = cases.iter().map(Case::with_same_list).collect();
        cases.into_iter().chain(same_list)
    };
    kinds.into_iter().flat_map(twice).collect()
}

fn replays(mode: Mode, goals: [f64; 4]) -> Vec<Case> {
    let case = |craft, length| Case::new(Call::Replay(mode), craft, length);
    let of_goal = |(length, goal)| case(Craft::Lasting, Length::Of(length)).with_goal(goal);
    let others = [
        case(Craft::FewPoints, Length::Of(1)),
        case(Craft::FewPoints, Length::Of(10)),
        case(Craft::Players, Length::ToTheEnd),
    ];
    LENGTHS.into_iter().zip(goals).map(of_goal).chain(others).collect()
}

fn texts() -> Vec<Case> {
    let case = |length| Case::new(Call::Text, Craft::Lasting, Length::Of(length));
    LENGTHS.into_iter().map(case).collect()
}

fn players_texts() -> Vec<Case> {
    let case = |length| Case::new(Call::Text, Craft::Players, length).with_goal(PLAYERS_TEXT_GOAL);
    vec![case(Length::Of(1)), case(Length::ToTheEnd)]
}
