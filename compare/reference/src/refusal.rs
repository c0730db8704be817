//! The refusals: the Rust has none, so this is a model of the table in the scope's paper, with the place of request E1.

use std::fmt;

#[derive(Clone, Copy)]
pub enum Refusal {
    Outside { place: usize },
    OutsideState,
    UnknownAction { place: usize },
    IllegalMove,
    UnknownWord { offset: usize },
    RoomTooShort { needed: usize },
    UnsoundTree,
    UnknownNode,
    NotAbove,
    OutsideScore,
    VisitsFull,
    MalformedLine,
    TooLong,
    NoDraw,
    DrawTooHigh,
    BadSearch,
}

impl Refusal {
    pub fn number(self) -> u8 {
        match self {
            Refusal::Outside { .. } => 1,
            Refusal::OutsideState => 2,
            Refusal::UnknownAction { .. } => 3,
            Refusal::IllegalMove => 4,
            Refusal::UnknownWord { .. } => 5,
            Refusal::RoomTooShort { .. } => 6,
            Refusal::UnsoundTree => 7,
            Refusal::UnknownNode => 8,
            Refusal::NotAbove => 9,
            Refusal::OutsideScore => 10,
            Refusal::VisitsFull => 11,
            Refusal::MalformedLine => 12,
            Refusal::TooLong => 13,
            Refusal::NoDraw => 19,
            Refusal::DrawTooHigh => 20,
            Refusal::BadSearch => 21,
        }
    }

    pub fn also(self) -> Option<usize> {
        match self {
            Refusal::Outside { place } | Refusal::UnknownAction { place } => Some(place),
            Refusal::UnknownWord { offset } => Some(offset),
            Refusal::RoomTooShort { needed } => Some(needed),
            _ => None,
        }
    }
}

impl fmt::Display for Refusal {
    fn fmt(&self, out: &mut fmt::Formatter) -> fmt::Result {
        write!(out, "refused {}", self.number())?;
        self.also().map_or(Ok(()), |value| write!(out, " {value}"))
    }
}

/// The line of an answer that needs no room.
pub fn line<T: fmt::Display>(answer: Result<T, Refusal>) -> String {
    match answer {
        Ok(value) => value.to_string(),
        Err(refusal) => refusal.to_string(),
    }
}
