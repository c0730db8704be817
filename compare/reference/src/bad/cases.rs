//! Bad cases, of the kinds that are public entries: of actions, of sets, and the builder.

use super::{bytes, inputs, numbers, possible};
use crate::ask::ask;
use crate::case::{Case, TEXT_ROOM};
use crate::cases::count_case;
use crate::contexts;
use crate::counts::Counts;
use crate::generate::{sheet, word};
use crate::lined::Asked;
use crate::outside;
use crate::random::Random;
use std::io;

const KINDS: &[u8] = &[1, 2, 3, 4, 5, 6, 7, 8, 9, 10, 11, 12, 13, 14, 15, 16, 17, 21];

pub fn compare(seed: u64, count: u64, program: &[&str]) -> io::Result<()> {
    let cases = inputs(seed, count, KINDS, case).map(Asked::new);
    let mut counts = Counts::default();
    let asked = ask(program, cases, |case| count_case(&mut counts, case))?;
    possible::report(&counts, possible::OF_CASES, asked, seed);
    Ok(())
}

fn case(random: &mut Random, kind: u8) -> Case {
    let (set, other) = (set(random), set(random));
    match kind {
        1 | 3 => Case::new(kind, &[number(random)]),
        2 => Case::new(kind, &[number(random), random.below(5)]),
        4..=6 => Case::new(kind, &[number(random), random.between(0, 64)]),
        7 => Case::with_text(kind, &name(random)),
        9 => Case::with_list(kind, &list(random)),
        10..=12 => Case::new(kind, &[set, number(random)]),
        16 => Case::new(kind, &[set, random.between(0, 40)]),
        17 => Case::new(kind, &[set, other]),
        21 => Case::new(kind, &sheet_damaged(random)),
        _ => Case::new(kind, &[set]),
    }
}

/// Half of them have bit 31.
fn set(random: &mut Random) -> u32 {
    numbers::any(random) ^ random.below(2) << 31
}

fn number(random: &mut Random) -> u32 {
    numbers::action(random).into()
}

fn name(random: &mut Random) -> Vec<u8> {
    let mut name = if random.one_in(4) { bytes::any(random) } else { word(random) };
    if random.one_in(2) {
        bytes::damage(random, &mut name);
    }
    name.truncate(TEXT_ROOM);
    name
}

/// A line can say numbers below 64.
fn list(random: &mut Random) -> Vec<u32> {
    let end = random.any(&[31, 32, 64]);
    (0..random.place(TEXT_ROOM + 1)).map(|_| random.below(end)).collect()
}

fn sheet_damaged(random: &mut Random) -> Vec<u32> {
    let mut sheet = sheet(random).to_vec();
    match random.below(4) {
        0 => numbers::replace(random, &mut sheet),
        1 => numbers::damage(random, &mut sheet),
        _ => outside::push(random, &mut sheet, &contexts::sides()),
    }
    sheet
}
