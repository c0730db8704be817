//! The fixed calls: every refusal at its boundary and every two that meet, each damage of each record, each edge that is
//! sound, trees that are long or wide, and those around the bounds of the ways of `solution`.

use super::bounds;
use super::call::{Call, Function, FUNCTIONS};
use super::damage::{no_counts, DAMAGES};
use super::floats::{ABOVE_ONE, BELOW_ONE, LEAST, NANS, NO_SCORES, SCORES};
use super::generate::Case;
use super::record::{Record, NO_ACTION};
use super::sound::{LAST_ACTION, VISITS_MOST};
use crate::fixed::EDGE_SETS;

const USED: u64 = 5;
/// A node, one above it, and one that is beside it.
const START: u64 = 4;
const ABOVE: u64 = 2;
const BESIDE: u64 = 1;
/// Some moves, and not all.
const UNUSED: u32 = 0x5A5A_1234;

pub fn cases() -> impl Iterator<Item = Case> {
    let growing = [starts(), insertions()];
    let others = [lookups(), paths(), visits(), scores(), edges(), sets(), shapes()];
    let calls = growing.into_iter().chain(others).flatten().map(Case::new);
    calls.chain(damaged()).chain([equals()]).chain(bounds::cases())
}

/// Of five records used 1 and 2 are below the root, 3 below 2, 4 below 3; two to spare hold what no tree may.
fn records() -> Vec<Record> {
    let spare = Record {
        parent: u64::MAX,
        action: 255,
        visits: NANS[2],
        score_sum: NANS[1],
        max_score: NANS[3],
        unused: u32::MAX,
    };
    vec![
        Record::new(0, NO_ACTION, 0x7FFF_FFFF),
        Record::new(0, 3, 0),
        Record::new(0, 7, 1 << 30),
        Record::new(2, 30, 1),
        Record::new(3, 0, UNUSED),
        spare,
        Record { visits: -0.5, max_score: -0.0, unused: 1 << 31, ..spare },
    ]
}

/// As it is, with visits that are full at the start, and with a record wrong as well; each also with none to spare.
fn trees() -> Vec<Vec<Record>> {
    let mut full = records();
    full[START as usize].visits = VISITS_MOST;
    let mut unsound = full.clone();
    unsound[START as usize].max_score = ABOVE_ONE;
    let trees = [records(), full, unsound];
    trees.into_iter().flat_map(|tree| [tree[..USED as usize].to_vec(), tree]).collect()
}

/// Every edge of a set, over any number of records.
fn starts() -> Vec<Call> {
    let mut calls = Vec::new();
    for length in 0..=records().len() {
        let start = Call::new(Function::New, &records()[..length], 0);
        calls.extend(EDGE_SETS.map(|unused| Call { unused, ..start.clone() }));
    }
    calls
}

fn insertions() -> Vec<Call> {
    let mut calls = Vec::new();
    for tree in trees() {
        let insertion = Call::new(Function::Insert, &tree, USED);
        for action in 0..=255 {
            calls.push(Call { action, node: START, unused: UNUSED, ..insertion.clone() });
        }
        for node in [0, BESIDE, START, USED, USED + 1, 1 << 32, u64::MAX] {
            for action in [LAST_ACTION, LAST_ACTION + 1] {
                let insertion = Call { node, action, ..insertion.clone() };
                calls.extend(EDGE_SETS.map(|unused| Call { unused, ..insertion.clone() }));
            }
        }
    }
    calls
}

/// Children and the solution, in rooms from none to more than enough.
fn lookups() -> Vec<Call> {
    let mut calls = Vec::new();
    for tree in trees() {
        for room in 0..5 {
            for node in [0, BESIDE, ABOVE, START, USED, 1 << 32, u64::MAX] {
                calls.push(Call { node, room, ..Call::new(Function::Children, &tree, USED) });
            }
            for count in 0..=tree.len() as u64 {
                calls.push(Call { room, ..Call::new(Function::Solution, &tree, count) });
            }
        }
    }
    calls
}

/// Every start with every target, scores on both sides of their limits.
fn paths() -> Vec<Call> {
    let nodes = [0, BESIDE, ABOVE, 3, START, USED, 1 << 32, u64::MAX];
    let paths: Vec<(u64, u64)> =
        nodes.iter().flat_map(|start| nodes.map(|target| (*start, target))).collect();
    let scores = [0.5, -1.0, 1.0, ABOVE_ONE, -ABOVE_ONE, NANS[0]];
    trees().iter().flat_map(|tree| propagations(tree, &paths, &scores)).collect()
}

/// Each score from each start to its target.
fn propagations(tree: &[Record], paths: &[(u64, u64)], scores: &[f32]) -> Vec<Call> {
    let mut calls = Vec::new();
    for (node, target) in paths.iter().copied() {
        for score in scores.iter().copied() {
            let call = Call::new(Function::Backpropagate, tree, USED);
            calls.push(Call { node, target, score, ..call });
        }
    }
    calls
}

/// Each record in turn with visits around the most, below, on and above the path.
fn visits() -> Vec<Call> {
    let paths = [(START, 0), (START, ABOVE), (3, ABOVE), (START, START), (BESIDE, 0)];
    let mut calls = Vec::new();
    for number in 0..USED as usize {
        for visits in [VISITS_MOST - 2.0, VISITS_MOST - 1.0, VISITS_MOST, VISITS_MOST.next_up()] {
            let mut tree = records();
            tree[number].visits = visits;
            calls.extend(propagations(&tree, &paths, &[1.0, ABOVE_ONE]));
        }
    }
    calls
}

/// Every score onto sums and maxima of every kind.
fn scores() -> Vec<Call> {
    let mut calls = Vec::new();
    for visits in [1.0, 3.0, 8_388_609.0, VISITS_MOST - 1.0] {
        for score_sum in [0.0, -0.0, visits, -visits, LEAST, -LEAST, visits / 3.0] {
            for max_score in [0.0, LEAST, f32::MIN_POSITIVE, 0.5, BELOW_ONE, 1.0] {
                let tree = records_with(visits, score_sum, max_score);
                calls.extend(propagations(&tree, &[(START, ABOVE)], &SCORES));
                calls.extend(propagations(&tree, &[(START, ABOVE)], &NO_SCORES));
            }
        }
    }
    calls
}

/// All that are used have these floats.
fn records_with(visits: f32, score_sum: f32, max_score: f32) -> Vec<Record> {
    let mut tree = records();
    for record in &mut tree[..USED as usize] {
        *record = Record { visits, score_sum, max_score, ..*record };
    }
    tree
}

/// What is sound at an edge, for every function.
fn edges() -> Vec<Call> {
    let mut calls = Vec::new();
    for visits in [0.0, -0.0, 1.0, 8_388_609.0, VISITS_MOST - 1.0, VISITS_MOST] {
        for score_sum in [0.0, -0.0, visits, -visits] {
            for max_score in [0.0, LEAST, BELOW_ONE, 1.0] {
                let tree = records_with(visits, score_sum, max_score);
                calls.extend(FUNCTIONS.map(|function| asked(function, &tree, USED)));
            }
        }
    }
    calls
}

/// Every edge of a set, in each record in turn.
fn sets() -> Vec<Call> {
    let mut calls = Vec::new();
    for number in 0..USED as usize {
        for unused in EDGE_SETS {
            let mut tree = records();
            tree[number].unused = unused;
            calls.extend(FUNCTIONS.map(|function| asked(function, &tree, USED)));
        }
    }
    calls
}

/// Nothing but the tree is wrong.
fn asked(function: Function, tree: &[Record], count: u64) -> Call {
    let room = tree.len();
    let call = Call::new(function, tree, count);
    Call { node: START, target: ABOVE, score: 0.25, unused: UNUSED, room, ..call }
}

/// A tree that is one path and one that is one node's children, in rooms around what they need.
fn shapes() -> Vec<Call> {
    let below = 1000;
    let record = |parent: u64, number: u64| Record::new(parent, (number % 31) as u8, UNUSED);
    let root = || vec![Record::new(0, NO_ACTION, UNUSED)];
    let mut long = root();
    long.extend((1..=below).map(|number| record(number - 1, number)));
    let mut wide = root();
    wide.extend((1..=below).map(|number| record(0, number)));
    let mut calls = Vec::new();
    for tree in [long, wide] {
        let count = tree.len() as u64;
        let most = below as usize;
        for room in [0, 1, most - 1, most, most + 1] {
            calls.push(Call { room, ..Call::new(Function::Solution, &tree, count) });
            calls.push(Call { room, ..Call::new(Function::Children, &tree, count) });
        }
        for target in [0, 1, below - 1, below] {
            let call = Call::new(Function::Backpropagate, &tree, count);
            calls.push(Call { node: below, target, score: 0.5, ..call });
        }
    }
    calls
}

/// Each damage of each record, used or not, and each count that no tree has.
fn damaged() -> impl Iterator<Item = Case> {
    let mut cases = Vec::new();
    for function in &FUNCTIONS[1..] {
        for (name, apply) in DAMAGES {
            for number in 0..records().len() {
                let mut tree = records();
                apply(number as u64, &mut tree[number]);
                cases.push(Case::damaged(asked(*function, &tree, USED), name));
            }
        }
        for count in no_counts(records().len()) {
            cases.push(Case::damaged(asked(*function, &records(), count), "count"));
        }
    }
    cases.into_iter()
}

/// Children 1 and 2 of the root, both 0.5: the path takes 2.
fn equals() -> Case {
    let mut tree = records()[..3].to_vec();
    tree[1].max_score = 0.5;
    tree[2].max_score = 0.5;
    let case = Case::new(Call { room: 1, ..Call::new(Function::Solution, &tree, 3) });
    assert_eq!((case.answer.node, &case.answer.room[..]), (2, &[7][..]));
    case
}
