//! Back-propagation and solution on a tree of 4,096 records, with and without the scan of the public entries.
//!
//! An entry refuses an unsound tree, so it scans all records first; the Rust does not. The scan alone is timed by a
//! call whose start does not exist: refusal 8 may be told only of a sound tree, and nothing is done after it. Such a
//! call follows each call of an entry; the median of what the entry takes longer is the time of its inner function.

use crate::crafts::Craft;
use crate::lists::Random;
use crate::measure::{each, in_rounds, median, timed, Figure, Times};
use brothlantern::tree::{backpropagate, solution, Node, Solution};
use crafty::{Action, ActionSet, CraftState, Simulator};

const RECORDS: usize = 4_096;
/// A parent is one of so many records before, which makes paths of some 30.
const NEAR: usize = 256;
/// Calls of a round: the inner function is a small part of an entry's time, and only many calls tell it.
const CALLS: usize = 1_024;
/// Our solutions of a round: each goes over all records, where the Rust has lists of children.
const SOLUTIONS: usize = 256;

const NO_ACTION: u8 = 31;
const SUCCESS: u64 = 0;
const UNKNOWN_NODE: u64 = 8;

pub struct Trees {
    pub figures: Vec<Figure>,
    /// How many times as long as the scan a solution takes with it.
    pub scans_of_a_solution: f64,
}

pub fn measure(rounds: usize) -> Trees {
    let contexts = Craft::Lasting.contexts();
    let mut tree = Simulator::of_root(&contexts[0], ActionSet::new());
    let mut random = Random(RECORDS as u64);
    grow(&mut tree, &mut random);
    let mut nodes = records(&tree);
    let back = in_rounds(rounds, || back_round(&mut tree, &mut nodes, &mut random));
    let solution = in_rounds(rounds, || solution_round(&tree, &mut nodes));
    check_same(&tree, &nodes);
    let scans_of_a_solution = median(solution.iter().flatten().map(|call| call.entry / call.scan));
    let figures = [figures("back-propagation", back), figures("solution", solution)];
    Trees { figures: figures.into_iter().flatten().collect(), scans_of_a_solution }
}

/// As a search does: each new record tells its score to all above it.
fn grow(tree: &mut Simulator, random: &mut Random) {
    for node in 1..RECORDS {
        let parent = node - 1 - random.below(node.min(NEAR));
        let action = Action::ACTIONS[random.below(Action::ACTIONS.len())];
        tree.insert_action(parent, action, ActionSet::new());
        tree.backpropagate_score(node, 0, score(random));
    }
}

/// From 0 to below 1.
fn score(random: &mut Random) -> f32 {
    random.below(1 << 24) as f32 / (1 << 24) as f32
}

/// As our records have them.
pub fn records(tree: &Simulator) -> Vec<Node> {
    let record = |node: &crafty::tree::Node<CraftState>| Node {
        parent: node.parent.unwrap_or(0),
        action: node.state.action.map_or(NO_ACTION, |action| action as u8),
        visits: node.state.visits,
        score_sum: node.state.score_sum,
        max_score: node.state.max_score,
        unused: node.state.available_moves.bits(),
    };
    tree.tree().nodes.iter().map(record).collect()
}

/// What a call of the entry, the scan in it and a call of the Rust take, in nanoseconds.
struct Call {
    entry: f64,
    scan: f64,
    rust: f64,
}

/// From newest records up to the root, as in a search.
fn back_round(tree: &mut Simulator, nodes: &mut [Node], random: &mut Random) -> Vec<Call> {
    let given: Vec<(usize, f32)> =
        (0..CALLS).map(|_| (RECORDS - 1 - random.below(NEAR), score(random))).collect();
    let rust = timed(given.clone(), |(start, score)| {
        tree.backpropagate_score(start, 0, score);
        0
    });
    let call = |(start, score)| Call {
        entry: time_of(SUCCESS, || propagate(nodes, start, score)),
        scan: scan(nodes),
        rust: each(rust.0, CALLS),
    };
    given.into_iter().map(call).collect()
}

fn solution_round(tree: &Simulator, nodes: &mut [Node]) -> Vec<Call> {
    let mut room = [0; RECORDS];
    let rust = timed(vec![(); CALLS], |()| {
        let (actions, node) = tree.solution_node();
        (actions.len() + node) as u64
    });
    let call = |_| Call {
        entry: time_of(rust.1 / CALLS as u64, || {
            let solution = solve(nodes, &mut room);
            (solution.length + solution.node) as u64
        }),
        scan: scan(nodes),
        rust: each(rust.0, CALLS),
    };
    (0..SOLUTIONS).map(call).collect()
}

fn scan(nodes: &mut [Node]) -> f64 {
    time_of(UNKNOWN_NODE, || propagate(nodes, RECORDS, 0.0))
}

/// From `start` up to record 0. Answers 0, or the number of a refusal.
fn propagate(nodes: &mut [Node], start: usize, score: f32) -> u64 {
    let answer = backpropagate(nodes, RECORDS, start, 0, score);
    answer.map_or_else(|refusal| refusal.number().into(), |()| SUCCESS)
}

fn solve(nodes: &[Node], room: &mut [u8]) -> Solution {
    solution(nodes, RECORDS, room).expect("a sound tree, and room for all")
}

/// What one call takes, which must answer as expected.
fn time_of(expected: u64, mut call: impl FnMut() -> u64) -> f64 {
    let (time, answer) = timed(vec![()], |()| call());
    assert_eq!(answer, expected, "another answer than expected");
    each(time, 1)
}

fn figures(name: &str, rounds: Vec<Vec<Call>>) -> [Figure; 2] {
    let calls: Vec<Call> = rounds.into_iter().flatten().collect();
    let entry: Vec<Times> = calls.iter().map(|call| (call.entry, call.rust)).collect();
    let inner: Vec<Times> = calls.iter().map(|call| (call.entry - call.scan, call.rust)).collect();
    [
        Figure::new(format!("{name}, public entry"), &entry),
        Figure::new(format!("{name}, without the scan"), &inner),
    ]
}

/// Every record after all rounds, and the way that the solution takes through them.
fn check_same(tree: &Simulator, nodes: &[Node]) {
    assert!(records(tree) == nodes, "the records differ");
    let mut room = [0; RECORDS];
    let ours = solve(nodes, &mut room);
    let (actions, node) = tree.solution_node();
    let actions: Vec<u8> = actions.into_iter().map(|action| action as u8).collect();
    assert_eq!(ours.node, node, "the solutions end elsewhere");
    assert_eq!(room[..ours.length], actions, "the solutions differ");
}
