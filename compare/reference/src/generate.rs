//! Random cases: mostly inside the limits, and often at their edges.

use crate::actions;
use crate::case::{Case, LAST_KIND, NUMBERS, TEXT_ROOM};
use crate::contexts::FLAGS;
use crate::formulas::limits;
use crate::random::Random;
use crafty::Action;

const KNOWN: u32 = 31;

/// So many of each kind, which take turns; each by its number in a run.
pub fn cases(seed: u64, count: u64) -> impl Iterator<Item = Case> {
    let kinds = (1..=LAST_KIND).cycle();
    let numbers = 0..count * u64::from(LAST_KIND);
    numbers.zip(kinds).map(move |(number, kind)| case(&mut Random::numbered(seed, number), kind))
}

fn case(random: &mut Random, kind: u8) -> Case {
    match kind {
        1 | 3 => Case::new(kind, &[number(random)]),
        2 => Case::new(kind, &[number(random), random.below(5)]),
        4..=6 => with_text_room(random, kind),
        7 => Case::with_text(kind, &word(random)),
        9 => Case::with_list(kind, &list(random)),
        8 | 13..=15 => Case::new(kind, &[set(random)]),
        10..=12 => Case::new(kind, &[set(random), number(random)]),
        16 => with_member_room(random),
        17 => Case::new(kind, &[set(random), set(random)]),
        18..=20 => Case::new(kind, &inputs(random, kind)),
        _ => Case::new(kind, &sheet(random)),
    }
}

/// The number of an action, one in eight unknown.
fn number(random: &mut Random) -> u32 {
    if random.one_in(8) {
        random.between(KNOWN, 40)
    } else {
        random.below(KNOWN)
    }
}

fn action(random: &mut Random) -> Action {
    Action::ACTIONS[random.place(Action::ACTIONS.len())]
}

fn with_text_room(random: &mut Random, kind: u8) -> Case {
    let number = number(random);
    let needed = actions::known(number, 0).map_or(20, |action| actions::text(kind, action).len());
    Case::new(kind, &[number, room(random, needed as u32, 64)])
}

fn with_member_room(random: &mut Random) -> Case {
    let set = set(random);
    Case::new(16, &[set, room(random, set.count_ones(), 40)])
}

/// A room within two of the size needed, or now and then of any size.
fn room(random: &mut Random, needed: u32, greatest: u32) -> u32 {
    if random.one_in(4) {
        return random.between(0, greatest);
    }
    random.between(needed.saturating_sub(2), needed + 2)
}

/// A name, a name with one byte damaged, or a label.
pub fn word(random: &mut Random) -> Vec<u8> {
    let action = action(random);
    let mut word = action.name().as_bytes().to_vec();
    let place = random.place(word.len());
    match random.below(12) {
        0 => word[place] = letter(random),
        1 => word.insert(place, letter(random)),
        2 => word.push(letter(random)),
        3 => drop(word.remove(place)),
        4 => word[place] ^= 1 << random.below(8),
        5 => word = action.label().as_bytes().to_vec(),
        _ => {}
    }
    word
}

fn letter(random: &mut Random) -> u8 {
    random.between(32, 126) as u8
}

/// A list of known numbers, in one of four with unknown ones at one or two places.
fn list(random: &mut Random) -> Vec<u32> {
    let length = random.place(TEXT_ROOM + 1);
    let mut list: Vec<u32> = (0..length).map(|_| random.below(KNOWN)).collect();
    if length > 0 && random.one_in(4) {
        for _ in 0..2 {
            list[random.place(length)] = random.between(KNOWN, 63);
        }
    }
    list
}

/// One in eight with bit 31.
pub fn set(random: &mut Random) -> u32 {
    known_set(random) | u32::from(random.one_in(8)) << 31
}

/// Even, sparse and dense sets.
pub fn known_set(random: &mut Random) -> u32 {
    let bits = match random.below(4) {
        0 => random.bits() & random.bits() & random.bits(),
        1 => random.bits() | random.bits() | random.bits(),
        2 => 1 << random.below(KNOWN),
        _ => random.bits(),
    };
    bits & !(1 << KNOWN)
}

/// The inputs of a formula, each by its own limit.
fn inputs(random: &mut Random, kind: u8) -> [u32; 8] {
    let limits = limits(kind);
    let mut inputs = limits.map(|limit| around(random, limit));
    if kind == 19 && random.one_in(4) {
        // These two have rules of their own.
        let special = [Action::ByregotsBlessing, Action::TrainedEye];
        inputs[0] = special[random.place(2)] as u32;
    }
    inputs
}

/// A value up to the limit, often an edge of it and seldom just above; 0 where a number is unused.
fn around(random: &mut Random, limit: u32) -> u32 {
    match random.below(64) {
        _ if limit == 0 => 0,
        0 => limit + 1,
        1..=4 => limit,
        5..=24 => 0,
        _ => random.between(0, limit),
    }
}

/// Player, recipe and options: nearly all inside the limits, with levels near each other.
pub fn sheet(random: &mut Random) -> [u32; NUMBERS] {
    let level = random.between(1, 110);
    let near = (level + random.below(24)).saturating_sub(12);
    let recipe_level = if random.one_in(8) { random.bits() } else { near };
    let mut sheet = [0; NUMBERS];
    sheet[..4].copy_from_slice(&[level, stat(random), stat(random), points(random)]);
    sheet[4..9].copy_from_slice(&[
        random.bits(),
        recipe_level,
        random.below(5),
        seldom_outside(random, 1_000_000),
        seldom_outside(random, 1_000_000),
    ]);
    sheet[9] = if random.one_in(32) { random.below(131) } else { random.between(1, 97) };
    for (place, least, greatest) in [(10, 1, 1_000), (11, 0, 200), (12, 1, 1_000), (13, 0, 200)] {
        sheet[place] = least + seldom_outside(random, greatest - least);
    }
    sheet[14] = random.bits();
    sheet[15] = random.below(256);
    sheet[16] = seldom_outside(random, 1_000_000);
    sheet[17] = seldom_outside(random, 1_000_000);
    sheet[FLAGS] = random.below(64);
    sheet
}

fn stat(random: &mut Random) -> u32 {
    seldom_outside(random, 10_000)
}

/// Points that some actions cost more than, or any number of them.
fn points(random: &mut Random) -> u32 {
    if random.one_in(2) {
        return random.below(260);
    }
    seldom_outside(random, 1_000_000)
}

fn seldom_outside(random: &mut Random, limit: u32) -> u32 {
    if random.one_in(128) {
        return limit + 1 + random.below(3);
    }
    random.between(0, limit)
}
