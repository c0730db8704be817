//! A call of a function on trees of include/crafty.h, in the bytes that bindings/host.c reads.

use super::record::Record;

#[derive(Clone, Copy, PartialEq, Eq, Debug)]
pub enum Function {
    New,
    Insert,
    Children,
    Backpropagate,
    Solution,
}

pub const FUNCTIONS: [Function; 5] = [
    Function::New,
    Function::Insert,
    Function::Children,
    Function::Backpropagate,
    Function::Solution,
];
/// Its place among the functions of bindings/calls.h.
const FIRST: u64 = 6;
/// The fifteen numbers that a replay has there, of which six serve.
const FIELDS: usize = 15;

impl Function {
    pub fn name(self) -> &'static str {
        match self {
            Function::New => "crafty_tree_new",
            Function::Insert => "crafty_tree_insert",
            Function::Children => "crafty_tree_children",
            Function::Backpropagate => "crafty_tree_backpropagate",
            Function::Solution => "crafty_tree_solution",
        }
    }

    /// The bytes of one number of the lent room; nothing for a function that has no room.
    pub fn width(self) -> usize {
        match self {
            Function::Children => 8,
            Function::Solution => 1,
            _ => 0,
        }
    }
}

/// What is asked. A function reads those that it has; `node` is also the parent or the start, `room` counts numbers.
#[derive(Clone, Debug)]
pub struct Call {
    pub function: Function,
    pub records: Vec<Record>,
    pub count: u64,
    pub node: u64,
    pub target: u64,
    pub action: u8,
    pub score: f32,
    pub unused: u32,
    pub room: usize,
}

impl Call {
    pub fn new(function: Function, records: &[Record], count: u64) -> Call {
        Call {
            function,
            records: records.to_vec(),
            count,
            node: 0,
            target: 0,
            action: 0,
            score: 0.0,
            unused: 0,
            room: 0,
        }
    }

    /// The room before the call: no two neighbours are the same, so that a shifted copy is seen too.
    pub fn lent(&self) -> Vec<u8> {
        (0..self.room * self.function.width()).map(|place| 0xA5 ^ (place % 251) as u8).collect()
    }

    pub fn request(&self) -> Vec<u8> {
        let room = self.lent();
        let records: Vec<u8> = self.records.iter().flat_map(Record::bytes).collect();
        let mut fields = [0; FIELDS];
        fields[0] = self.count;
        fields[1] = self.node;
        fields[2] = self.target;
        fields[3] = u64::from(self.action);
        fields[4] = u64::from(self.score.to_bits());
        fields[5] = u64::from(self.unused);
        let mut head = vec![FIRST + self.function as u64, 0];
        head.extend(fields);
        head.extend([records.len() as u64, room.len() as u64]);
        let mut bytes: Vec<u8> = head.into_iter().flat_map(u64::to_le_bytes).collect();
        bytes.extend(records);
        bytes.extend(room);
        bytes
    }
}
