//! The same with room that the caller lends: a success answers how much was written, from the room's start and no
//! further; a refusal, 6 among them, leaves the room as it was.

use crate::archive;
use crate::{Context, Mode, Refusal};

/// How many numbers the report of a replay has; include/crafty.h gives their order.
pub const NUMBERS: usize = 21;

pub fn replay(
    context: &Context,
    mode: Mode,
    list: &[u8],
    room: &mut [u32],
) -> Result<usize, Refusal> {
    archive::replay(context.fields(), mode == Mode::Strict, list, room).told()
}

pub fn replay_text(input: &[u8], room: &mut [u8]) -> Result<usize, Refusal> {
    archive::replay_text(input, room).told()
}

pub fn print(input: &[u8], room: &mut [u8]) -> Result<usize, Refusal> {
    archive::print(input, room).told()
}

pub fn read_list(text: &[u8], room: &mut [u8]) -> Result<usize, Refusal> {
    archive::read_list(text, room).told()
}

pub fn write_list(list: &[u8], room: &mut [u8]) -> Result<usize, Refusal> {
    archive::write_list(list, room).told()
}
