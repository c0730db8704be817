//! When a call over a tree is refused, but for the room: the Rust has no refusals, so this is a model of the scope's paper.

use super::call::{Call, Function};
use super::record::{Record, NO_ACTION};
use crate::refusal::Refusal;
use crate::sets::set;

pub const LAST_ACTION: u8 = 30;
pub const VISITS_MOST: f32 = 16_777_216.0;

pub fn is_sound(records: &[Record], count: u64) -> bool {
    count >= 1
        && count <= records.len() as u64
        && (0..).zip(&records[..count as usize]).all(|(number, record)| is_sound_at(number, record))
}

fn is_sound_at(number: u64, record: &Record) -> bool {
    let is_placed = match number {
        0 => record.parent == 0 && record.action == NO_ACTION,
        _ => record.parent < number && record.action <= LAST_ACTION,
    };
    let Record { visits, score_sum, max_score, unused, .. } = *record;
    is_placed
        && visits.trunc() == visits
        && (0.0..=VISITS_MOST).contains(&visits)
        && score_sum.abs() <= visits
        && (0.0..=1.0).contains(&max_score)
        && max_score.is_sign_positive()
        && set(unused).is_ok()
}

/// In the order of the numbers; the room comes after all of them.
pub fn check(call: &Call) -> Result<(), Refusal> {
    if matches!(call.function, Function::New | Function::Insert) {
        set(call.unused)?;
    }
    if call.function == Function::New {
        return Ok(());
    }
    if call.function == Function::Insert && call.action > LAST_ACTION {
        return Err(Refusal::UnknownAction { place: 0 });
    }
    if !is_sound(&call.records, call.count) {
        return Err(Refusal::UnsoundTree);
    }
    if call.function != Function::Solution && call.node >= call.count {
        return Err(Refusal::UnknownNode);
    }
    if call.function == Function::Backpropagate {
        return check_path(call);
    }
    Ok(())
}

fn check_path(call: &Call) -> Result<(), Refusal> {
    if call.target >= call.count {
        return Err(Refusal::UnknownNode);
    }
    let upward = upward(&call.records, call.node);
    let Some(last) = upward.iter().position(|node| *node == call.target) else {
        return Err(Refusal::NotAbove);
    };
    if !(-1.0..=1.0).contains(&call.score) {
        return Err(Refusal::OutsideScore);
    }
    let is_full = |node: &u64| call.records[*node as usize].visits == VISITS_MOST;
    if upward[..=last].iter().any(is_full) {
        return Err(Refusal::VisitsFull);
    }
    Ok(())
}

/// A node of a sound tree and all above it, up to record 0.
pub fn upward(records: &[Record], node: u64) -> Vec<u64> {
    let above = |node: &u64| (*node > 0).then(|| records[*node as usize].parent);
    std::iter::successors(Some(node), above).collect()
}
