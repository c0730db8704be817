//! The line that asks for a Display: that of a state, whose last number is now the size of the room.

use crate::states::fields::{context, state};
use crate::states::line::{line, Numbers, NUMBERS};

/// The place of the room's size.
pub const ROOM: usize = NUMBERS - 1;
pub const ROOM_MOST: u32 = 160;
const KIND: &str = "24";

pub fn write(numbers: &Numbers) -> Vec<u8> {
    line(KIND, numbers, b"")
}

/// How many bytes the Rust would write, also of a state that is refused.
pub fn needed(numbers: &Numbers) -> u32 {
    state(numbers, &context(numbers)).to_string().len() as u32
}

pub fn with_room(numbers: &Numbers, room: u32) -> Numbers {
    let mut numbers = *numbers;
    numbers[ROOM] = room;
    numbers
}
