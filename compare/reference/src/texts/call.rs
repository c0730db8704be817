//! A call of a function of include/crafty.h, in the bytes that bindings/host.c reads.

use crate::states::fields::ContextNumbers;
use crate::states::mode::Mode;

#[derive(Clone, Copy, PartialEq, Eq, PartialOrd, Ord, Debug)]
pub enum Function {
    Replay,
    ReplayText,
    Print,
    ReadList,
    WriteList,
    MacroTime,
}

impl Function {
    pub fn name(self) -> &'static str {
        match self {
            Function::Replay => "crafty_replay",
            Function::ReplayText => "crafty_replay_text",
            Function::Print => "crafty_print",
            Function::ReadList => "crafty_read_list",
            Function::WriteList => "crafty_write_list",
            Function::MacroTime => "crafty_macro_time",
        }
    }

    /// The bytes of one number of the lent room.
    pub fn width(self) -> usize {
        match self {
            Function::Replay => 4,
            _ => 1,
        }
    }
}

/// What is asked, but for the room. Only `Replay` has a context and a mode beside its input, which is a list.
#[derive(Clone)]
pub struct Call {
    pub function: Function,
    pub context: ContextNumbers,
    pub mode: Mode,
    pub input: Vec<u8>,
}

impl Call {
    pub fn new(function: Function, input: &[u8]) -> Call {
        let context = ContextNumbers::default();
        Call { function, context, mode: Mode::Plain, input: input.to_vec() }
    }

    pub fn replay(context: ContextNumbers, mode: Mode, list: &[u8]) -> Call {
        Call { function: Function::Replay, context, mode, input: list.to_vec() }
    }

    /// The head is nineteen numbers of eight bytes; then come the input and the room.
    pub fn request(&self, room: &[u8]) -> Vec<u8> {
        let mut head = vec![self.function as u64, self.mode as u64];
        head.extend(self.context.iter().map(|number| u64::from(*number)));
        head.extend([self.input.len() as u64, room.len() as u64]);
        let mut bytes: Vec<u8> = head.into_iter().flat_map(u64::to_le_bytes).collect();
        bytes.extend(&self.input);
        bytes.extend(room);
        bytes
    }
}

/// A room before a call: no two neighbours are the same, so that a shifted copy is seen too.
pub fn room(bytes: usize) -> Vec<u8> {
    (0..bytes).map(|place| 0xA5 ^ (place % 251) as u8).collect()
}
