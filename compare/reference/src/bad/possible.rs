//! The refusals that each entry can give, by the scope's paper; a run must meet each of them and no other.

use crate::counts::Counts;
use crate::fail;

/// Each refusal and each place of 1 is met, and each entry answers, at least once in so many inputs of a run.
const LEAST_ONCE_IN: u64 = 10_000;

type Entry = (&'static str, &'static [usize]);

pub const OF_CASES: &[Entry] = &[
    ("01 attributes", &[3]),
    ("02 price", &[3]),
    ("03 wait", &[3]),
    ("04 name", &[3, 6]),
    ("05 label", &[3, 6]),
    ("06 macro_text", &[3, 6]),
    ("07 from_name", &[5]),
    ("08 from_bits", &[1]),
    ("09 from_list", &[3]),
    ("10 contains", &[1, 3]),
    ("11 set", &[1, 3]),
    ("12 unset", &[1, 3]),
    ("13 len", &[1]),
    ("14 is_empty", &[1]),
    ("15 highest", &[1]),
    ("16 members", &[1, 6]),
    ("17 keep", &[1]),
    ("21 CraftContext::new", &[1]),
];
pub const OF_CRAFTS: &[Entry] = &[
    ("CraftState::new", &[1]),
    ("moves", &[1, 2]),
    ("result", &[1, 2]),
    ("score", &[1, 2]),
    ("step", &[1, 2, 3, 4]),
    ("replay", &[1, 3]),
    ("display", &[1, 2, 6]),
];
pub const OF_TEXTS: &[Entry] = &[
    ("crafty_replay", &[1, 3, 6]),
    ("crafty_replay_text", &[1, 5, 6, 12, 13]),
    ("crafty_print", &[6]),
    ("crafty_read_list", &[5, 6]),
    ("crafty_write_list", &[3, 6, 13]),
    ("crafty_macro_time", &[3, 13]),
];
pub const OF_TREES: &[Entry] = &[
    ("crafty_tree_new", &[1, 6]),
    ("crafty_tree_insert", &[1, 3, 6, 7, 8]),
    ("crafty_tree_children", &[6, 7, 8]),
    ("crafty_tree_backpropagate", &[7, 8, 9, 10, 11]),
    ("crafty_tree_solution", &[6, 7]),
];

/// Prints the counts of a run, and fails unless they are those of its entries.
pub fn report(counts: &Counts, entries: &[Entry], asked: u64, seed: u64) {
    print!("{counts}");
    for (entry, refusals) in entries {
        for (number, met) in counts.of(entry).into_iter().enumerate() {
            let is_possible = number == 0 || refusals.contains(&number);
            if is_possible && met < asked / LEAST_ONCE_IN {
                fail(format!("{entry} gave {number} (0 is an answer) only {met} times"));
            }
            if !is_possible && met > 0 {
                fail(format!("{entry} cannot give {number}, but gave it {met} times"));
            }
        }
    }
    counts.check_places(asked / LEAST_ONCE_IN);
    println!("compare: {asked} bad inputs answered as they must be, seed {seed}");
}
