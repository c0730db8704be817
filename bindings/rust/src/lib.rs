//! The crafting-rules engine for hosts in Rust. Every function takes any input; a refusal says what is wrong with
//! it. An action is its number, 0 to 30, one byte to an action in a list.
//!
//! Every bit of an answer rests on the floating-point environment in which a program starts: round to nearest, no flush
//! to zero and no denormals are zero, no exception unmasked. Rust itself takes it for granted, but C code in the same
//! process can change it. In another environment nothing is promised: rounding upward, a craft that scores 3E94BC6A
//! scores 3E94BC6C; with flush to zero a back-propagated 1e-40 is stored as 0; with an unmasked inexact exception a
//! score ends the process.

mod archive;
mod context;
pub mod lent;
mod refusal;
mod report;
pub mod search;
pub mod tree;

pub use context::{Context, Mode};
pub use refusal::Refusal;
pub use report::{Buffs, Combo, Outcome, Perfection, Report, State};

use std::time::Duration;

/// Replays a list from the start of a craft. Refused by 1 and 3.
pub fn replay(context: &Context, mode: Mode, list: &[u8]) -> Result<Report, Refusal> {
    let mut numbers = [0; lent::NUMBERS];
    lent::replay(context, mode, list, &mut numbers)?;
    Ok(Report::from_numbers(&numbers))
}

/// Replays the input of the program `replay`: the state's lines, and the line of the result. Refused by 13, 12, 1 and 5.
pub fn replay_text(input: &[u8]) -> Result<String, Refusal> {
    written(|room| lent::replay_text(input, room)).map(text)
}

/// What the program `replay` prints for an input, refused or not; of a refusal the number alone.
pub fn print(input: &[u8]) -> String {
    text(written(|room| lent::print(input, room)).expect("room is all that can be lacking"))
}

/// The actions that a text names. Refused by 5.
pub fn read_list(text: &[u8]) -> Result<Vec<u8>, Refusal> {
    written(|room| lent::read_list(text, room))
}

/// A list as text: each action's name and a line feed. Refused by 13 and 3.
pub fn write_list(list: &[u8]) -> Result<String, Refusal> {
    written(|room| lent::write_list(list, room)).map(text)
}

/// The sum of the waits of all of a list's actions but the last: nothing waits for that. Refused by 13 and 3.
pub fn macro_time(list: &[u8]) -> Result<Duration, Refusal> {
    archive::macro_time(list).told().map(|seconds| Duration::from_secs(seconds as u64))
}

/// Asks with no room how much is needed, and then again with just that.
fn written(write: impl Fn(&mut [u8]) -> Result<usize, Refusal>) -> Result<Vec<u8>, Refusal> {
    match write(&mut []) {
        Err(Refusal::NoRoom { needed }) => {
            let mut room = vec![0; needed];
            write(&mut room)?;
            Ok(room)
        }
        answer => answer.map(|_| Vec::new()),
    }
}

fn text(bytes: Vec<u8>) -> String {
    String::from_utf8(bytes).expect("the engine writes ASCII")
}
