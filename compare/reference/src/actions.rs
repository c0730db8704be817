//! Answers of actions, kinds 01 to 07.

use crate::case::Case;
use crate::formulas::plain_context;
use crate::refusal::{line, Refusal};
use crate::room;
use crafty::{Action, CraftState};
use std::fmt::Display;

/// The combos by the numbers they have in a case.
pub const COMBOS: [Option<Action>; 5] = [
    None,
    Some(Action::BasicTouch),
    Some(Action::StandardTouch),
    Some(Action::RefinedTouch),
    Some(Action::Observe),
];

pub fn answer(case: &Case) -> String {
    let [number, second, ..] = case.numbers;
    let action = known(number, 0);
    match case.kind {
        1 => line(action.map(attributes)),
        2 => line(action.map(|action| price(action, second))),
        3 => line(action.map(wait)),
        4..=6 => room::line(second, action.map(|action| text(case.kind, action))),
        _ => line(from_name(case.text())),
    }
}

/// The action of a number that stands at a place of a list, or at 0 alone.
pub fn known(number: u32, place: usize) -> Result<Action, Refusal> {
    let action = Action::ACTIONS.get(number as usize).copied();
    action.ok_or(Refusal::UnknownAction { place })
}

/// The text that a case of kind 04, 05 or 06 asks for.
pub fn text(kind: u8, action: Action) -> String {
    match kind {
        4 => action.name().to_string(),
        5 => action.label().to_string(),
        _ => action.macro_text(),
    }
}

fn attributes(action: Action) -> String {
    let row = action.attributes();
    [
        row.level.to_string(),
        or_dash(row.progress_efficiency),
        or_dash(row.quality_efficiency),
        or_dash(row.durability_cost),
        or_dash(row.cp_cost),
    ]
    .join(" ")
}

fn or_dash<T: Display>(value: Option<T>) -> String {
    value.map_or("-".to_string(), |value| value.to_string())
}

fn price(action: Action, combo: u32) -> String {
    let context = plain_context();
    let mut state = CraftState::_new(&context);
    state.action = Some(action);
    state.previous_combo_action = COMBOS[combo as usize];
    let base = action.attributes().cp_cost;
    or_dash(base.map(|base| Action::calc_cp_cost(&state, base)))
}

/// The Rust says the wait in its macro text alone.
pub fn wait(action: Action) -> usize {
    let text = action.macro_text();
    let (_, end) = text.split_once("<wait.").expect("a macro text has a wait");
    end.trim_end_matches('>').parse().expect("a wait is a number")
}

/// The whole text is the name, so the offset of a word that is none is always 0.
fn from_name(text: &[u8]) -> Result<u32, Refusal> {
    let action = named(text).ok_or(Refusal::UnknownWord { offset: 0 })?;
    Ok(action as u32)
}

pub fn named(word: &[u8]) -> Option<Action> {
    std::str::from_utf8(word).ok()?.parse().ok()
}
