//! A record of a tree, in the bytes that it has in C. Two are the same where their bits are.

use crafty::tree::Node;
use crafty::CraftState;
use std::fmt;

pub const WIDTH: usize = 32;
/// The action of record 0.
pub const NO_ACTION: u8 = 31;

#[derive(Clone, Copy)]
pub struct Record {
    pub parent: u64,
    pub action: u8,
    pub visits: f32,
    pub score_sum: f32,
    pub max_score: f32,
    /// The moves not drawn from it yet, bit n for action n.
    pub unused: u32,
}

impl Record {
    pub fn new(parent: u64, action: u8, unused: u32) -> Record {
        Record { parent, action, visits: 0.0, score_sum: 0.0, max_score: 0.0, unused }
    }

    /// As the Rust's node has it. The unused moves are its state's `available_moves`.
    pub fn of(node: &Node<CraftState>) -> Record {
        Record {
            parent: node.parent.unwrap_or(0) as u64,
            action: node.state.action.map_or(NO_ACTION, |action| action as u8),
            visits: node.state.visits,
            score_sum: node.state.score_sum,
            max_score: node.state.max_score,
            unused: node.state.available_moves.bits(),
        }
    }

    /// Three bytes behind the action and four at the end are padding.
    pub fn bytes(&self) -> [u8; WIDTH] {
        let mut bytes = [0; WIDTH];
        bytes[..8].copy_from_slice(&self.parent.to_le_bytes());
        bytes[8] = self.action;
        bytes[12..16].copy_from_slice(&self.visits.to_bits().to_le_bytes());
        bytes[16..20].copy_from_slice(&self.score_sum.to_bits().to_le_bytes());
        bytes[20..24].copy_from_slice(&self.max_score.to_bits().to_le_bytes());
        bytes[24..28].copy_from_slice(&self.unused.to_le_bytes());
        bytes
    }

    pub fn read(bytes: &[u8]) -> Record {
        let bits =
            |at: usize| u32::from_le_bytes(bytes[at..at + 4].try_into().expect("four bytes"));
        Record {
            parent: u64::from_le_bytes(bytes[..8].try_into().expect("eight bytes")),
            action: bytes[8],
            visits: f32::from_bits(bits(12)),
            score_sum: f32::from_bits(bits(16)),
            max_score: f32::from_bits(bits(20)),
            unused: bits(24),
        }
    }
}

impl PartialEq for Record {
    fn eq(&self, other: &Record) -> bool {
        self.bytes() == other.bytes()
    }
}

/// The floats with their bits, which tell one NaN from another.
impl fmt::Debug for Record {
    fn fmt(&self, out: &mut fmt::Formatter) -> fmt::Result {
        write!(out, "(parent {}, action {}", self.parent, self.action)?;
        for float in [self.visits, self.score_sum, self.max_score] {
            write!(out, ", {float:?} {:08X}", float.to_bits())?;
        }
        write!(out, ", unused {:08X})", self.unused)
    }
}
