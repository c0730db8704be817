//! What a call answers, and what the records and its room hold then: by the Rust, unless it is refused.

use super::arena::Tree;
use super::call::{Call, Function};
use super::record::Record;
use super::sound::check;
use crate::refusal::Refusal;

#[derive(PartialEq, Debug)]
pub struct Answer {
    pub number: u64,
    pub value: u64,
    pub node: u64,
    pub records: Vec<Record>,
    pub room: Vec<u8>,
}

impl Answer {
    /// The count of records used after the call.
    pub fn count(&self, call: &Call) -> u64 {
        match call.function {
            Function::New if self.number == 0 => self.value,
            Function::Insert if self.number == 0 => self.value + 1,
            _ => call.count,
        }
    }
}

pub fn answer(call: &Call) -> Answer {
    told(call).unwrap_or_else(|refusal| Answer {
        number: u64::from(refusal.number()),
        value: refusal.also().unwrap_or(0) as u64,
        ..unchanged(call)
    })
}

fn unchanged(call: &Call) -> Answer {
    Answer { number: 0, value: 0, node: 0, records: call.records.clone(), room: call.lent() }
}

fn told(call: &Call) -> Result<Answer, Refusal> {
    check(call)?;
    match call.function {
        Function::New => in_records(call, 1, || Tree::new(call.unused).records()),
        Function::Insert => inserted(call),
        Function::Children => {
            let children = tree(call).children(call.node as usize);
            let bytes = children.iter().flat_map(|child| (*child as u64).to_le_bytes()).collect();
            in_room(call, children.len(), bytes)
        }
        Function::Backpropagate => Ok(backpropagated(call)),
        Function::Solution => {
            let (actions, last) = tree(call).solution();
            Ok(Answer { node: last as u64, ..in_room(call, actions.len(), actions)? })
        }
    }
}

/// The Rust's, of the records that are used.
fn tree(call: &Call) -> Tree {
    Tree::of(&call.records[..call.count as usize])
}

fn inserted(call: &Call) -> Result<Answer, Refusal> {
    let mut tree = tree(call);
    let number = tree.insert(call.node as usize, call.action, call.unused);
    let told = in_records(call, number + 1, || tree.records())?;
    Ok(Answer { value: number as u64, ..told })
}

fn backpropagated(call: &Call) -> Answer {
    let mut tree = tree(call);
    tree.backpropagate(call.node as usize, call.target as usize, call.score);
    let records = tree.records().into_iter().map(|record| positive(call, record));
    Answer { records: with_spare(call, records.collect()), ..unchanged(call) }
}

/// The first so many records are written.
fn in_records(
    call: &Call,
    needed: usize,
    write: impl FnOnce() -> Vec<Record>,
) -> Result<Answer, Refusal> {
    if needed > call.records.len() {
        return Err(Refusal::RoomTooShort { needed });
    }
    let records = with_spare(call, write());
    Ok(Answer { value: needed as u64, records, ..unchanged(call) })
}

/// The records behind those that are used stay as they were.
fn with_spare(call: &Call, mut used: Vec<Record>) -> Vec<Record> {
    used.extend(&call.records[used.len()..]);
    used
}

fn in_room(call: &Call, needed: usize, bytes: Vec<u8>) -> Result<Answer, Refusal> {
    if needed > call.room {
        return Err(Refusal::RoomTooShort { needed });
    }
    let mut room = call.lent();
    room[..bytes.len()].copy_from_slice(&bytes);
    Ok(Answer { value: needed as u64, room, ..unchanged(call) })
}

/// Where a maximum of +0 meets a score of -0 the Rust may answer either; +0 stays.
fn positive(call: &Call, record: Record) -> Record {
    let is_negative_zero = |float: f32| float == 0.0 && float.is_sign_negative();
    match is_negative_zero(record.max_score) && is_negative_zero(call.score) {
        true => Record { max_score: 0.0, ..record },
        false => record,
    }
}
