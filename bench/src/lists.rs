//! Lists of moves that are executed whole.

use crafty::{Action, CraftContext, CraftResult, CraftState};
use std::ops::RangeInclusive;

/// How many actions a player's craft takes to its end.
const TO_THE_END: RangeInclusive<usize> = 15..=40;

/// Which lists of one length are asked.
#[derive(Clone, Copy)]
pub enum Lists {
    /// Different ones in turn, so that no branch is learned by heart.
    InTurn,
    /// One over and over, as a page does.
    Same,
}

impl Lists {
    pub fn count(self) -> usize {
        match self {
            Lists::InTurn => 64,
            Lists::Same => 1,
        }
    }

    /// What comes behind the name of a case.
    pub fn note(self) -> &'static str {
        match self {
            Lists::InTurn => "",
            Lists::Same => ", same list",
        }
    }
}

#[derive(Clone, Copy)]
pub enum Length {
    /// So many actions, none of which ends the craft.
    Of(usize),
    /// Until it is finished.
    ToTheEnd,
}

impl Length {
    /// What comes behind the kind in the name of a case.
    pub fn note(self) -> String {
        match self {
            Length::Of(length) => format!(" of {length}"),
            Length::ToTheEnd => format!(" of {} to {}", TO_THE_END.start(), TO_THE_END.end()),
        }
    }

    pub fn seed(self) -> u64 {
        match self {
            Length::Of(length) => length as u64,
            Length::ToTheEnd => 0,
        }
    }

    fn most(self) -> usize {
        match self {
            Length::Of(length) => length,
            Length::ToTheEnd => *TO_THE_END.end(),
        }
    }

    fn lets(self, result: Option<CraftResult>) -> bool {
        match (self, result) {
            (_, None) => true,
            (Length::ToTheEnd, Some(CraftResult::Finished(_))) => true,
            _ => false,
        }
    }

    fn is_whole(self, list: &[Action], last: &CraftState) -> bool {
        match self {
            Length::Of(length) => list.len() == length,
            Length::ToTheEnd => TO_THE_END.contains(&list.len()) && last.check_result().is_some(),
        }
    }
}

pub fn numbers(list: &[Action]) -> Vec<u8> {
    list.iter().map(|action| *action as u8).collect()
}

/// A list found by walks at random.
pub fn list(
    random: &mut Random,
    context: &CraftContext,
    length: Length,
    strict: bool,
) -> Vec<Action> {
    loop {
        let (list, last) = walk(random, context, length, strict);
        if length.is_whole(&list, &last) {
            return list;
        }
    }
}

/// Any moves that the length lets, until there are enough or none is left, and the state after them.
fn walk<'a>(
    random: &mut Random,
    context: &'a CraftContext,
    length: Length,
    strict: bool,
) -> (Vec<Action>, CraftState<'a>) {
    let mut state = if strict { CraftState::new_strict(context) } else { CraftState::new(context) };
    let mut list = Vec::new();
    while list.len() < length.most() {
        let mut moves = state.available_moves.to_vec();
        let after = |action: &Action| {
            if strict {
                state.execute_strict(action)
            } else {
                state.execute(action)
            }
        };
        moves.retain(|action| length.lets(after(action).check_result()));
        if moves.is_empty() {
            break;
        }
        let action = moves[random.below(moves.len())];
        list.push(action);
        state = after(&action);
    }
    (list, state)
}

pub struct Random(pub u64);

impl Random {
    pub fn below(&mut self, end: usize) -> usize {
        self.0 =
            self.0.wrapping_mul(6_364_136_223_846_793_005).wrapping_add(1_442_695_040_888_963_407);
        ((u128::from(self.0) * end as u128) >> 64) as usize
    }
}
