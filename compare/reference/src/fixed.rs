//! The fixed list: every action, and every edge of the limits.

use crate::actions::text;
use crate::case::{Case, NUMBERS};
use crate::contexts::{self, FLAGS, HAS_QUALITY_TARGET, HAS_STARTING_QUALITY};
use crate::edges::plain;
use crate::outside::around;
use crafty::Action;

const UNKNOWN: [u32; 3] = [31, 32, 255];
const EDGE_ACTIONS: [u32; 4] = [0, 30, 31, 255];
pub const EDGE_SETS: [u32; 6] = [0, 1, 1 << 30, (1 << 31) - 1, 1 << 31, u32::MAX];
/// 256 is 0 as one byte and the greatest number is -1 with a sign: a limit must be tested before.
const TIMERS: &[u32] = &[0, 1, 8, 9, 256];
const FACTORS: &[u32] = &[0, 1, 200_070, 200_071, u32::MAX];

pub fn cases() -> Vec<Case> {
    let actions = [rows(), rooms(), words()];
    let sets = [sets(), lists(), members(), pairs()];
    let formulas = [progress_increases(), quality_increases(), durability_costs()];
    let contexts = [contexts(), sheets()];
    actions.into_iter().chain(sets).chain(formulas).chain(contexts).flatten().collect()
}

fn rows() -> Vec<Case> {
    let mut cases = Vec::new();
    for number in (0..=30).chain(UNKNOWN) {
        cases.push(Case::new(1, &[number]));
        cases.extend((0..5).map(|combo| Case::new(2, &[number, combo])));
        cases.push(Case::new(3, &[number]));
    }
    cases
}

fn rooms() -> Vec<Case> {
    let mut cases = Vec::new();
    for kind in 4..=6 {
        for action in Action::ACTIONS {
            let needed = text(kind, *action).len() as u32;
            for room in [needed, needed - 1, needed + 1, 0] {
                cases.push(Case::new(kind, &[*action as u32, room]));
            }
        }
        for number in UNKNOWN {
            cases.extend([0, 20].map(|room| Case::new(kind, &[number, room])));
        }
    }
    cases
}

fn words() -> Vec<Case> {
    let mut words = vec![String::new()];
    for action in Action::ACTIONS {
        let name = action.name();
        words.extend([
            name.to_string(),
            name[..name.len() - 1].to_string(),
            format!("{name}s"),
            name[..1].to_lowercase() + &name[1..],
            format!("{name} "),
            action.label().to_string(),
        ]);
    }
    words.iter().map(|word| Case::with_text(7, word.as_bytes())).collect()
}

fn sets() -> Vec<Case> {
    let mut cases = Vec::new();
    for set in EDGE_SETS {
        cases.extend([8, 13, 14, 15].map(|kind| Case::new(kind, &[set])));
        for number in EDGE_ACTIONS {
            cases.extend([10, 11, 12].map(|kind| Case::new(kind, &[set, number])));
        }
    }
    cases
}

fn lists() -> Vec<Case> {
    let all: Vec<u32> = (0..=30).collect();
    let lists: [&[u32]; 8] = [
        &[],
        &all,
        &[30; 36],
        &[5, 0, 5, 30, 0],
        &[31, 0, 1],
        &[0, 63, 1],
        &[0, 1, 32],
        &[2, 40, 31],
    ];
    lists.into_iter().map(|list| Case::with_list(9, list)).collect()
}

fn members() -> Vec<Case> {
    let mut cases = Vec::new();
    for set in EDGE_SETS {
        let needed = set.count_ones();
        cases.extend([needed, needed + 1].map(|room| Case::new(16, &[set, room])));
        if needed > 0 {
            cases.push(Case::new(16, &[set, needed - 1]));
        }
    }
    cases
}

fn pairs() -> Vec<Case> {
    let mut cases = Vec::new();
    for set in EDGE_SETS {
        cases.extend(EDGE_SETS.map(|other| Case::new(17, &[set, other])));
    }
    cases
}

fn progress_increases() -> Vec<Case> {
    let fields: [&[u32]; 4] = [FACTORS, &[0, 1, 500, 501, u32::MAX], TIMERS, TIMERS];
    let middles = [[100, 120, 0, 0], [200_070, 500, 1, 1]];
    middles.iter().flat_map(|middle| varied(18, middle, &fields)).collect()
}

fn quality_increases() -> Vec<Case> {
    let efficiency = &[0, 1, 300, 301, u32::MAX];
    let quiet = &[0, 1, 10, 11, 256];
    let missing = &[0, 1, 1_000_000, 1_000_001, u32::MAX];
    let fields: [&[u32]; 7] = [&EDGE_ACTIONS, FACTORS, efficiency, quiet, TIMERS, TIMERS, missing];
    let mut cases = Vec::new();
    for action in [Action::BasicTouch, Action::ByregotsBlessing, Action::TrainedEye] {
        let number = action as u32;
        cases.extend(varied(19, &[number, 100, 125, 3, 0, 0, 1000], &fields));
        cases.extend(varied(19, &[number, 200_070, 300, 10, 1, 1, 1_000_000], &fields));
    }
    cases
}

fn durability_costs() -> Vec<Case> {
    let costs = &[0, 1, 5, 10, 19, 20, 21, 256];
    let fields: [&[u32]; 4] = [costs, &[0, 1, 2, 3, 256], TIMERS, TIMERS];
    let middles = [[19, 0, 0, 0], [19, 0, 4, 0], [19, 0, 0, 8], [19, 1, 4, 0], [19, 2, 0, 8]];
    middles.iter().flat_map(|middle| varied(20, middle, &fields)).collect()
}

/// Both sides of every edge, levels around TrainedEye's and every action's, and options given or not.
fn contexts() -> Vec<Case> {
    let stat = &[0, 1, 9_999, 10_000, 10_001, u32::MAX];
    let amount = &[0, 1, 1_000_000, 1_000_001, u32::MAX];
    let div = &[0, 1, 1_000, 1_001, u32::MAX];
    let modifier = &[0, 1, 100, 200, 201, u32::MAX];
    let level = &[0, 1, 5, 31, 54, 80, 82, 89, 90, 91, 99, 100, 101, 110, 111, u32::MAX];
    let cp = &[0, 6, 17, 18, 249, 250, 600, 1_000_000, 1_000_001];
    let durability = &[0, 1, 97, 98, 127, 128, 129, 130];
    let free = &[0, u32::MAX];
    let flags: Vec<u32> = (0..64).collect();
    let fields: [&[u32]; NUMBERS] = [
        level,
        stat,
        stat,
        cp,
        free,
        level,
        free,
        amount,
        amount,
        durability,
        div,
        modifier,
        div,
        modifier,
        free,
        &[0, 1, 255],
        amount,
        amount,
        &flags,
    ];
    [plain(), given()].iter().flat_map(|middle| varied(21, middle, &fields)).collect()
}

/// With both options, so that the recipe's quality is not taken.
fn given() -> [u32; NUMBERS] {
    let mut numbers = plain();
    numbers[8] = u32::MAX;
    numbers[FLAGS] |= HAS_STARTING_QUALITY | HAS_QUALITY_TARGET;
    numbers
}

/// Each number at its limits, and every two outside.
fn sheets() -> Vec<Case> {
    let sheets = [plain(), given()].map(|middle| around(&middle, &contexts::sides()));
    sheets.concat().iter().map(|sheet| Case::new(21, sheet)).collect()
}

/// The middle with one of its numbers replaced, by each of that number's values in turn.
fn varied(kind: u8, middle: &[u32], fields: &[&[u32]]) -> Vec<Case> {
    let mut cases = Vec::new();
    for (place, values) in fields.iter().enumerate() {
        for value in *values {
            let mut numbers = middle.to_vec();
            numbers[place] = *value;
            cases.push(Case::new(kind, &numbers));
        }
    }
    cases
}
