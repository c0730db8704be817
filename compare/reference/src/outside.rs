//! Numbers outside their limits: those next to a limit, alone and by twos, and random ones.

use crate::limits::{Limit, CONTEXT, FIELDS};
use crate::random::Random;

/// The most that a number is by ten digits, by 32 bits, and as a record by the type of each field, a durability by its byte.
const TEN_DIGITS: u64 = 9_999_999_999;
pub const WORD: u64 = u32::MAX as u64;
const RECORD: [u64; FIELDS] =
    [WORD, WORD, WORD, WORD, 255, WORD, WORD, WORD, 255, WORD, 1, WORD, 1, 1, 1];

/// How an input holds its numbers.
pub trait Number: Copy + TryFrom<u64> {}

impl Number for u32 {}
impl Number for u64 {}

/// A place, and the number that is put there.
pub type Change = (usize, u64);

/// A side of the limit at a place that can be passed: the last number inside, the first outside, and the farthest.
#[derive(Clone, Copy)]
pub struct Side {
    place: usize,
    inside: u64,
    outside: u64,
    farthest: u64,
}

pub fn sides(place: usize, limit: Limit, most: u64) -> impl Iterator<Item = Side> {
    let (least, greatest) = limit.into_inner();
    let side = move |inside, outside, farthest| Side { place, inside, outside, farthest };
    let below = (least > 0).then(|| side(least, least - 1, 0));
    let above = (greatest < most).then(|| side(greatest, greatest + 1, most));
    below.into_iter().chain(above)
}

/// Of a context that is a record.
pub fn in_record() -> Vec<Side> {
    in_context(RECORD)
}

/// Of a context that is fifteen numbers of 32 bits.
pub fn in_words() -> Vec<Side> {
    in_context([WORD; FIELDS])
}

/// Of a context that is a line of digits.
pub fn in_line() -> Vec<Side> {
    in_context([TEN_DIGITS; FIELDS])
}

fn in_context(most: [u64; FIELDS]) -> Vec<Side> {
    let fields = CONTEXT.into_iter().zip(most).enumerate();
    fields.flat_map(|(place, (limit, most))| sides(place, limit, most)).collect()
}

/// The numbers with the last one inside, on each side in turn.
pub fn last_inside<N: Number, const S: usize>(numbers: &[N; S], sides: &[Side]) -> Vec<[N; S]> {
    sides.iter().map(|side| with(numbers, &[(side.place, side.inside)])).collect()
}

/// The numbers with the first one outside, on each side alone, and on every two sides of two places.
pub fn one_or_two<N: Number, const S: usize>(numbers: &[N; S], sides: &[Side]) -> Vec<[N; S]> {
    let first = |side: &Side| (side.place, side.outside);
    let mut all: Vec<[N; S]> = sides.iter().map(|side| with(numbers, &[first(side)])).collect();
    for (number, one) in sides.iter().enumerate() {
        let others = sides[number..].iter().filter(|other| other.place != one.place);
        all.extend(others.map(|other| with(numbers, &[first(one), first(other)])));
    }
    all
}

/// Both of these.
pub fn around<N: Number, const S: usize>(numbers: &[N; S], sides: &[Side]) -> Vec<[N; S]> {
    [last_inside(numbers, sides), one_or_two(numbers, sides)].concat()
}

/// One to three numbers outside, each the first on its side or, one in four, any.
pub fn push<N: Number>(random: &mut Random, numbers: &mut [N], sides: &[Side]) {
    for _ in 0..random.between(1, 3) {
        let Side { place, outside, farthest, .. } = random.any(sides);
        let number = if random.one_in(4) { random.from_to(outside, farthest) } else { outside };
        put(numbers, (place, number));
    }
}

pub fn with<N: Number, const S: usize>(numbers: &[N; S], changes: &[Change]) -> [N; S] {
    let mut numbers = *numbers;
    changes.iter().for_each(|change| put(&mut numbers, *change));
    numbers
}

fn put<N: Number>(numbers: &mut [N], (place, number): Change) {
    numbers[place] = N::try_from(number).ok().expect("a number that can be given");
}
