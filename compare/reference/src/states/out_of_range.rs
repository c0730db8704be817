//! Values of a state just outside its ranges, one field at a time.

use super::fields::*;
use super::limits::{BUFFS_MOST, STATE_AMOUNT_MOST};
use super::line::Numbers;
use crate::random::Random;
use crafty::Action;

/// -20 as a byte.
const TOO_WORN: u32 = 236;

/// Gives one number of a line such a value.
pub fn push(random: &mut Random, numbers: &mut Numbers) {
    let (place, value) = random.any(&values(numbers));
    numbers[place] = value;
}

fn values(numbers: &Numbers) -> Vec<(usize, u32)> {
    let mut values = vec![
        (STEP, 0),
        (PROGRESS, STATE_AMOUNT_MOST + 1),
        (QUALITY, STATE_AMOUNT_MOST + 1),
        (DURABILITY, TOO_WORN),
        (DURABILITY, numbers[DURABILITY_MAX] + 1),
        (CP, numbers[CP_MAX] + 1),
        (COMBO, wrong_combo(numbers[LAST])),
        (LAST, 31),
    ];
    let buffs = BUFFS_MOST.iter().enumerate();
    values.extend(buffs.map(|(place, most)| (INNER_QUIET + place, u32::from(*most) + 1)));
    values
}

/// Observe, or BasicTouch where the last action is Observe itself.
fn wrong_combo(last: u32) -> u32 {
    if last == Action::Observe as u32 {
        1
    } else {
        4
    }
}
