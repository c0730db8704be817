//! Refusal 1 and its place, which the Rust does not have: the limits of a context in the scope's paper, and request E1.

use crate::refusal::Refusal;
use std::ops::RangeInclusive;

pub const FIELDS: usize = 15;

pub type Limit = RangeInclusive<u64>;

pub const ANY: Limit = 0..=u32::MAX as u64;
const FACTOR: Limit = 0..=200_070;
const STEPS: Limit = 0..=255;
const AMOUNT: Limit = 0..=1_000_000;
const DURABILITY: Limit = 1..=97;
const FLAG: Limit = 0..=1;
const SET: Limit = 0..=0x7FFF_FFFF;

/// What each field of a context may be, in `CraftContext` order. Where only its type bounds a field, that is its limit: a
/// number that does not fit is outside as any other.
pub const CONTEXT: [Limit; FIELDS] = [
    ANY, ANY, FACTOR, FACTOR, STEPS, AMOUNT, AMOUNT, AMOUNT, DURABILITY, AMOUNT, FLAG, SET, FLAG,
    FLAG, FLAG,
];

/// Refuses at the first number that is outside its limit; the first of all has the place `start`.
pub fn check<N: Copy + Into<u64>>(
    numbers: &[N],
    limits: &[Limit],
    start: usize,
) -> Result<(), Refusal> {
    let mut pairs = numbers.iter().zip(limits);
    match pairs.position(|(number, limit)| !limit.contains(&(*number).into())) {
        Some(place) => Err(Refusal::Outside { place: start + place }),
        None => Ok(()),
    }
}
