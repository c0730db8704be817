//! A model of lists as text and of macro times, with the names and waits of the Rust.

use crate::actions::{known, named, wait};
use crate::refusal::Refusal;
use crafty::Action;

pub const INPUT_MOST: usize = 65_536;
const GAPS: [u8; 4] = [9, 10, 13, 32];

/// The numbers of the actions that a text names.
pub fn read(text: &[u8]) -> Result<Vec<u8>, Refusal> {
    Ok(words(text, 0)?.into_iter().map(|action| action as u8).collect())
}

/// The actions that a text names; an offset is counted from `before` bytes further up.
pub fn words(text: &[u8], before: usize) -> Result<Vec<Action>, Refusal> {
    let mut actions = Vec::new();
    let mut start = 0;
    for word in text.split(|byte| GAPS.contains(byte)) {
        if !word.is_empty() {
            let unknown = Refusal::UnknownWord { offset: before + start };
            actions.push(named(word).ok_or(unknown)?);
        }
        start += word.len() + 1;
    }
    Ok(actions)
}

pub fn written(list: &[u8]) -> Result<Vec<u8>, Refusal> {
    let line = |action: Action| format!("{}\n", action.name());
    Ok(checked(list)?.into_iter().map(line).collect::<String>().into_bytes())
}

/// Nothing waits for the last action.
pub fn seconds(list: &[u8]) -> Result<usize, Refusal> {
    let mut actions = checked(list)?;
    actions.pop();
    Ok(actions.into_iter().map(wait).sum())
}

/// What tells one sum of waits from another: of two actions or more the first counts, and the last does not.
pub fn ends(list: &[u8]) -> String {
    let wait = |number: &u8| wait(Action::ACTIONS[usize::from(*number)]);
    match list {
        [] => "no action".to_string(),
        [_] => "one action".to_string(),
        [first, .., last] => format!("the first waits {}, the last {}", wait(first), wait(last)),
    }
}

fn checked(list: &[u8]) -> Result<Vec<Action>, Refusal> {
    if list.len() > INPUT_MOST {
        return Err(Refusal::TooLong);
    }
    known_list(list)
}

pub fn known_list(list: &[u8]) -> Result<Vec<Action>, Refusal> {
    list.iter().enumerate().map(|(place, number)| known(u32::from(*number), place)).collect()
}
