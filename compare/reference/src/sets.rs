//! Answers of sets, kinds 08 to 17.

use crate::actions::known;
use crate::case::{mark, Case};
use crate::refusal::{line, Refusal};
use crate::room;
use crafty::{Action, ActionSet};

pub fn answer(case: &Case) -> String {
    let [bits, second, ..] = case.numbers;
    match case.kind {
        8 => line(set(bits).map(|set| set.bits())),
        9 => line(from_list(case).map(|set| set.bits())),
        10 => line(with_action(bits, second, |set, action| yes(set.contains(action)))),
        11 => line(with_action(bits, second, |set, action| {
            set.set(action);
            set.bits()
        })),
        12 => line(with_action(bits, second, |set, action| {
            set.unset(action);
            set.bits()
        })),
        13 => line(set(bits).map(|set| set.len())),
        14 => line(set(bits).map(|set| yes(set.is_empty()))),
        15 => line(set(bits).map(highest)),
        16 => room::line(second, set(bits).map(members)),
        _ => line(kept(bits, second)),
    }
}

/// The place of a set is 0.
pub fn set(bits: u32) -> Result<ActionSet, Refusal> {
    if bits >> 31 == 1 {
        return Err(Refusal::Outside { place: 0 });
    }
    let mut set = ActionSet::new();
    set.set_bit(bits);
    Ok(set)
}

fn from_list(case: &Case) -> Result<ActionSet, Refusal> {
    let actions: Result<Vec<Action>, Refusal> =
        case.list().enumerate().map(|(place, number)| known(number, place)).collect();
    Ok(ActionSet::from_vec(&actions?))
}

/// The set is tested before the action, because its refusal has the lower number.
fn with_action<T>(
    bits: u32,
    number: u32,
    change: impl FnOnce(&mut ActionSet, Action) -> T,
) -> Result<T, Refusal> {
    let mut set = set(bits)?;
    Ok(change(&mut set, known(number, 0)?))
}

fn yes(value: bool) -> &'static str {
    if value {
        "yes"
    } else {
        "no"
    }
}

fn highest(mut set: ActionSet) -> String {
    let mut first = None;
    set.keep(|action| {
        first.get_or_insert(*action);
        true
    });
    first.map_or("none".to_string(), |action| (action as u32).to_string())
}

fn members(set: ActionSet) -> String {
    set.to_vec().into_iter().map(|action| mark(action as u32)).collect()
}

fn kept(bits: u32, other: u32) -> Result<u32, Refusal> {
    let (mut set, other) = (set(bits)?, set(other)?);
    set.keep(|action| other.contains(*action));
    Ok(set.bits())
}
