//! The tree of the search, over records that the caller lends. The first `count` of them are the tree, and that number
//! is the caller's to keep; the others may hold anything. A refusal leaves the records and the room as they were.
//!
//! ```
//! use brothlantern::tree::{self, Node};
//!
//! let mut nodes = [Node::default(); 8];
//! let root = tree::new(&mut nodes, 0b10)?;
//! let child = tree::insert(&mut nodes, root, 0, 5, 0b11)?;
//! let count = child + 1;
//! tree::backpropagate(&mut nodes, count, child, 0, 0.5)?;
//!
//! let mut actions = [0; 8];
//! let solution = tree::solution(&nodes, count, &mut actions)?;
//! assert_eq!((&actions[..solution.length], solution.node), (&[5][..], child));
//! # Ok::<(), brothlantern::Refusal>(())
//! ```

use crate::archive;
use crate::Refusal;

/// A record, laid out as in C. A tree is sound if its count is at least 1 and at most the records lent, and if each
/// record below the count is as said here; none of the three floats is a NaN.
#[repr(C)]
#[derive(Clone, Copy, Debug, Default, PartialEq)]
pub struct Node {
    /// Below the record's own number; in record 0 it is 0.
    pub parent: usize,
    /// At most 30; in record 0 it is 31.
    pub action: u8,
    /// A whole number from 0 to 16,777,216.
    pub visits: f32,
    /// From `-visits` to `visits`.
    pub score_sum: f32,
    /// From +0 to 1, and not minus zero.
    pub max_score: f32,
    /// The moves not drawn from the record yet, bit n for action n: bit 31 is clear, and no more is asked. They are the
    /// caller's to keep: the functions here write those of a new record alone, and a search, which draws, those of its
    /// tree.
    pub unused: u32,
}

/// What [`solution`] answers.
#[derive(Clone, Copy, Debug, PartialEq, Eq)]
pub struct Solution {
    /// How many actions were written.
    pub length: usize,
    /// The last node.
    pub node: usize,
}

/// A new tree: writes record 0, with no visit and these unused moves. Answers the count, 1. Refused by 1 and 6.
pub fn new(nodes: &mut [Node], unused: u32) -> Result<usize, Refusal> {
    archive::tree_new(nodes, unused).told()
}

/// Writes a new record, number `count`, with no visit and these unused moves, below a parent, whose record stays as it
/// is. Answers its number; the count is then one more. Refused by 1, 3, 7, 8 and 6.
pub fn insert(
    nodes: &mut [Node],
    count: usize,
    parent: usize,
    action: u8,
    unused: u32,
) -> Result<usize, Refusal> {
    archive::tree_insert(nodes, count, parent, action, unused).told()
}

/// Each record from `start` up to `target` gets one visit more, the score, which is from -1 to 1, in its sum, and the
/// greater maximum. Refused by 7, 8, 9, 10 and 11.
pub fn backpropagate(
    nodes: &mut [Node],
    count: usize,
    start: usize,
    target: usize,
    score: f32,
) -> Result<(), Refusal> {
    archive::tree_backpropagate(nodes, count, start, target, score).told().map(drop)
}

/// Writes the numbers of a record's children, in record order. Answers how many. Refused by 7, 8 and 6.
pub fn children(
    nodes: &[Node],
    count: usize,
    node: usize,
    room: &mut [usize],
) -> Result<usize, Refusal> {
    archive::tree_children(nodes, room, count, node).told()
}

/// From record 0 the child of greatest `max_score`, the last of equals, and so on until there is none: writes their
/// actions. Refused by 7 and 6.
pub fn solution(nodes: &[Node], count: usize, room: &mut [u8]) -> Result<Solution, Refusal> {
    let (length, node) = archive::tree_solution(nodes, room, count).told()?;
    Ok(Solution { length, node })
}
