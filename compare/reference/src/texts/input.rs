//! A model of the replay program's input, from the scope's paper: its size, its first line and its words.

use super::lists::{words, INPUT_MOST};
use crate::limits::{self, CONTEXT, FIELDS};
use crate::refusal::Refusal;
use crate::states::fields;
use crafty::{Action, CraftContext};

const DIGITS_MOST: usize = 10;

pub struct Input {
    pub context: CraftContext,
    pub actions: Vec<Action>,
}

pub fn read(input: &[u8]) -> Result<Input, Refusal> {
    if input.len() > INPUT_MOST {
        return Err(Refusal::TooLong);
    }
    let end = input.iter().position(|byte| *byte == b'\n').ok_or(Refusal::MalformedLine)?;
    let numbers = line(&input[..end]).ok_or(Refusal::MalformedLine)?;
    let context = context(&numbers)?;
    let list = end + 1;
    Ok(Input { context, actions: words(&input[list..], list)? })
}

/// None unless the line has the shape of fifteen numbers.
fn line(line: &[u8]) -> Option<[u64; FIELDS]> {
    let runs: Option<Vec<u64>> = line.split(|byte| *byte == b' ').map(number).collect();
    runs?.try_into().ok()
}

fn number(run: &[u8]) -> Option<u64> {
    if run.is_empty() || run.len() > DIGITS_MOST || !run.iter().all(u8::is_ascii_digit) {
        return None;
    }
    std::str::from_utf8(run).ok()?.parse().ok()
}

/// Of numbers that may be too large for their fields.
pub fn context(numbers: &[u64; FIELDS]) -> Result<CraftContext, Refusal> {
    limits::check(numbers, &CONTEXT, 0)?;
    Ok(fields::context(&numbers.map(|number| number as u32)))
}
