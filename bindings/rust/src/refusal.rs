//! Why an input is refused.

use std::error::Error;
use std::fmt;

#[derive(Clone, Copy, Debug, PartialEq, Eq)]
pub enum Refusal {
    /// A number of the context is outside its limit, or a set has bit 31: the place of the first such field, named by
    /// [`Context::FIELDS`](crate::Context::FIELDS), and 0 for a set.
    OutsideLimits { place: usize },
    /// An action's number is above 30: its first place in the list, 0 for a single one.
    UnknownAction { place: usize },
    /// A word is no action's name: the byte where the first such word starts.
    UnknownWord { offset: usize },
    /// Lent room is too short: how much is needed.
    NoRoom { needed: usize },
    /// The tree is not sound, as said at [`Node`](crate::tree::Node).
    UnsoundTree,
    /// A node's number is not below the count.
    UnknownNode,
    /// The target is neither the start nor above it.
    NotAbove,
    /// A score is a NaN or outside -1 to 1.
    BadScore,
    /// A record on the way has 16,777,216 visits.
    VisitsFull,
    /// The first line is not fifteen numbers, parted by single spaces.
    MalformedLine,
    /// An input, or a list to write as text or to time, is above 65,536 bytes.
    TooLong,
    /// A search wants a draw, and none is left.
    NoDraw,
    /// A draw is not below the number of moves that it is to pick from.
    DrawTooHigh,
    /// An option of a search or a logarithm is outside its limits, or `step_max` is 0.
    BadSearch,
}

impl Refusal {
    /// None for success.
    pub(crate) fn of_number(number: u32, value: usize) -> Option<Refusal> {
        match number {
            0 => None,
            1 => Some(Refusal::OutsideLimits { place: value }),
            3 => Some(Refusal::UnknownAction { place: value }),
            5 => Some(Refusal::UnknownWord { offset: value }),
            6 => Some(Refusal::NoRoom { needed: value }),
            7 => Some(Refusal::UnsoundTree),
            8 => Some(Refusal::UnknownNode),
            9 => Some(Refusal::NotAbove),
            10 => Some(Refusal::BadScore),
            11 => Some(Refusal::VisitsFull),
            12 => Some(Refusal::MalformedLine),
            13 => Some(Refusal::TooLong),
            19 => Some(Refusal::NoDraw),
            20 => Some(Refusal::DrawTooHigh),
            21 => Some(Refusal::BadSearch),
            _ => unreachable!("no function refuses by {number}"),
        }
    }

    /// The number that the portal's pages know it by.
    pub fn number(self) -> u8 {
        match self {
            Refusal::OutsideLimits { .. } => 1,
            Refusal::UnknownAction { .. } => 3,
            Refusal::UnknownWord { .. } => 5,
            Refusal::NoRoom { .. } => 6,
            Refusal::UnsoundTree => 7,
            Refusal::UnknownNode => 8,
            Refusal::NotAbove => 9,
            Refusal::BadScore => 10,
            Refusal::VisitsFull => 11,
            Refusal::MalformedLine => 12,
            Refusal::TooLong => 13,
            Refusal::NoDraw => 19,
            Refusal::DrawTooHigh => 20,
            Refusal::BadSearch => 21,
        }
    }
}

impl fmt::Display for Refusal {
    fn fmt(&self, out: &mut fmt::Formatter) -> fmt::Result {
        match self {
            Refusal::OutsideLimits { place } => {
                write!(out, "field {place} of the context, or the set, is outside its limit")
            }
            Refusal::UnknownAction { place } => {
                write!(out, "no action has the number at place {place}")
            }
            Refusal::UnknownWord { offset } => {
                write!(out, "the word at byte {offset} is no action's name")
            }
            Refusal::NoRoom { needed } => write!(out, "room for {needed} is needed"),
            Refusal::UnsoundTree => write!(out, "the tree is not sound"),
            Refusal::UnknownNode => write!(out, "a node's number is not below the count"),
            Refusal::NotAbove => write!(out, "the target is neither the start nor above it"),
            Refusal::BadScore => write!(out, "the score is not from -1 to 1"),
            Refusal::VisitsFull => write!(out, "a record on the way has all its visits"),
            Refusal::MalformedLine => write!(out, "the first line is not fifteen numbers"),
            Refusal::TooLong => write!(out, "more than 65,536 bytes"),
            Refusal::NoDraw => write!(out, "the draws are used up"),
            Refusal::DrawTooHigh => write!(out, "a draw is not below the number of moves"),
            Refusal::BadSearch => {
                write!(out, "an option of the search or a logarithm is outside its limits")
            }
        }
    }
}

impl Error for Refusal {}
