//! What a call answers, and what its room holds then.

use super::call::{room, Call, Function};
use super::{lists, output};
use crate::refusal::Refusal;

/// What is written where the room is long enough, and the value that comes back with it.
pub struct Told {
    pub value: usize,
    pub bytes: Vec<u8>,
}

#[derive(PartialEq, Eq)]
pub struct Answer {
    pub number: u64,
    pub value: u64,
    pub room: Vec<u8>,
}

/// With all the room that it needs.
pub fn told(call: &Call) -> Result<Told, Refusal> {
    let input = &call.input;
    match call.function {
        Function::Replay => output::numbers(call).map(|bytes| whole(call, bytes)),
        Function::ReplayText => output::text(input).map(|bytes| whole(call, bytes)),
        Function::Print => Ok(whole(call, output::printed(input))),
        Function::ReadList => lists::read(input).map(|bytes| whole(call, bytes)),
        Function::WriteList => lists::written(input).map(|bytes| whole(call, bytes)),
        Function::MacroTime => lists::seconds(input).map(|value| Told { value, bytes: Vec::new() }),
    }
}

fn whole(call: &Call, bytes: Vec<u8>) -> Told {
    Told { value: bytes.len() / call.function.width(), bytes }
}

/// In a room of so many numbers.
pub fn answer(call: &Call, told: &Result<Told, Refusal>, numbers: usize) -> Answer {
    let mut room = room(numbers * call.function.width());
    match told {
        Err(refusal) => refused(*refusal, room),
        Ok(told) if told.bytes.len() > room.len() => {
            refused(Refusal::RoomTooShort { needed: told.value }, room)
        }
        Ok(told) => {
            room[..told.bytes.len()].copy_from_slice(&told.bytes);
            Answer { number: 0, value: told.value as u64, room }
        }
    }
}

fn refused(refusal: Refusal, room: Vec<u8>) -> Answer {
    let value = refusal.also().unwrap_or(0) as u64;
    Answer { number: u64::from(refusal.number()), value, room }
}
