//! Trees over lent records: each function, each refusal at its boundary, and what the records and the room hold then.

use brothlantern::tree::{self, backpropagate, children, insert, solution, Node, Solution};
use brothlantern::Refusal;
use std::fmt::Debug;

const ALL_MOVES: u32 = (1 << 31) - 1;
const COUNT: usize = 4;
const VISITS_MOST: f32 = 16_777_216.0;
/// The next numbers after 1 and after 2, and the least above 0.
const ABOVE_ONE: f32 = 1.0 + f32::EPSILON;
const ABOVE_TWO: f32 = 2.0 + 2.0 * f32::EPSILON;
const LEAST: f32 = 1e-45;

/// What is done to the record of a number.
type Damage = (usize, fn(&mut Node));

fn node(parent: usize, action: u8, unused: u32) -> Node {
    Node { parent, action, unused, ..Node::default() }
}

/// Records 1 and 2 are below record 0, record 3 is below 1, and record 4 is spare.
fn grown() -> [Node; 5] {
    [
        Node { visits: 5.0, score_sum: 2.5, max_score: 0.75, ..node(0, 31, ALL_MOVES) },
        Node { visits: 3.0, score_sum: -1.0, max_score: 0.5, ..node(0, 0, 1) },
        Node { max_score: 0.5, ..node(0, 30, 2) },
        node(1, 7, 3),
        Node { visits: -8.0, ..node(9, 99, 1 << 31) },
    ]
}

/// To the bit: a NaN is its own equal, and zeros of both signs differ.
fn assert_same(nodes: [Node; 5], wanted: [Node; 5]) {
    let bits = |node: Node| {
        let floats = [node.visits, node.score_sum, node.max_score].map(f32::to_bits);
        (node.parent, node.action, floats, node.unused)
    };
    assert_eq!(nodes.map(bits), wanted.map(bits));
}

/// Why what is asked over these records is refused, which leaves them as they are.
fn refusal<T: Debug>(
    mut nodes: [Node; 5],
    ask: impl FnOnce(&mut [Node]) -> Result<T, Refusal>,
) -> Refusal {
    let before = nodes;
    let answer = ask(&mut nodes);
    assert_same(nodes, before);
    answer.unwrap_err()
}

#[test]
fn starts() {
    let mut nodes = grown();
    assert_eq!(tree::new(&mut nodes[..1], ALL_MOVES), Ok(1));
    let mut wanted = grown();
    wanted[0] = node(0, 31, ALL_MOVES);
    assert_same(nodes, wanted);
}

#[test]
fn refuses_to_start() {
    let of =
        |length: usize, unused| refusal(grown(), |nodes| tree::new(&mut nodes[..length], unused));
    assert_eq!(of(0, ALL_MOVES), Refusal::NoRoom { needed: 1 });
    assert_eq!(of(0, 1 << 31), Refusal::OutsideLimits { place: 0 });
    assert_eq!(of(5, u32::MAX), Refusal::OutsideLimits { place: 0 });
}

#[test]
fn inserts() {
    let mut nodes = grown();
    assert_eq!(insert(&mut nodes, COUNT, 3, 30, ALL_MOVES), Ok(4));
    let mut wanted = grown();
    wanted[4] = node(3, 30, ALL_MOVES);
    assert_same(nodes, wanted);
}

/// Each with all that comes after it wrong too.
#[test]
fn refuses_to_insert() {
    let of = |length: usize, count, parent, action, unused| {
        refusal(grown(), |nodes| insert(&mut nodes[..length], count, parent, action, unused))
    };
    assert_eq!(of(4, COUNT, 3, 30, ALL_MOVES), Refusal::NoRoom { needed: 5 });
    assert_eq!(of(4, COUNT, 4, 30, ALL_MOVES), Refusal::UnknownNode);
    assert_eq!(of(4, 5, 5, 30, ALL_MOVES), Refusal::UnsoundTree);
    assert_eq!(of(4, 5, 5, 31, ALL_MOVES), Refusal::UnknownAction { place: 0 });
    assert_eq!(of(4, 5, 5, 31, 1 << 31), Refusal::OutsideLimits { place: 0 });
    assert_eq!(of(5, COUNT, 3, 30, u32::MAX), Refusal::OutsideLimits { place: 0 });
}

#[test]
fn propagates() {
    let mut nodes = grown();
    assert_eq!(backpropagate(&mut nodes, COUNT, 3, 1, 1.0), Ok(()));
    let mut wanted = grown();
    wanted[3] = Node { visits: 1.0, score_sum: 1.0, max_score: 1.0, ..wanted[3] };
    wanted[1] = Node { visits: 4.0, score_sum: 0.0, max_score: 1.0, ..wanted[1] };
    assert_same(nodes, wanted);
    assert_eq!(backpropagate(&mut nodes, COUNT, 2, 2, -1.0), Ok(()));
    wanted[2] = Node { visits: 1.0, score_sum: -1.0, ..wanted[2] };
    assert_same(nodes, wanted);
}

#[test]
fn refuses_to_propagate() {
    let of = |nodes, start, target, score| {
        refusal(nodes, |nodes| backpropagate(nodes, COUNT, start, target, score))
    };
    let mut full = grown();
    full[0].visits = VISITS_MOST;
    assert_eq!(of(full, 3, 0, 1.0), Refusal::VisitsFull);
    assert_eq!(of(full, 3, 0, ABOVE_ONE), Refusal::BadScore);
    assert_eq!(of(grown(), 3, 0, -ABOVE_ONE), Refusal::BadScore);
    assert_eq!(of(grown(), 3, 0, f32::NAN), Refusal::BadScore);
    assert_eq!(of(grown(), 3, 2, ABOVE_ONE), Refusal::NotAbove);
    assert_eq!(of(grown(), 1, 3, 0.0), Refusal::NotAbove);
    assert_eq!(of(grown(), 3, 4, 0.0), Refusal::UnknownNode);
    assert_eq!(of(grown(), 4, 0, 0.0), Refusal::UnknownNode);
}

/// Record 0 is not on the way from 3 up to 1; one visit less is not full.
#[test]
fn fills_visits() {
    let mut nodes = grown();
    nodes[0].visits = VISITS_MOST;
    assert_eq!(backpropagate(&mut nodes, COUNT, 3, 1, 0.0), Ok(()));
    nodes[0].visits = VISITS_MOST - 1.0;
    assert_eq!(backpropagate(&mut nodes, COUNT, 3, 0, 0.0), Ok(()));
    assert_eq!(nodes[0].visits, VISITS_MOST);
}

#[test]
fn lists_children() {
    let mut room = [7; 3];
    assert_eq!(children(&grown(), COUNT, 0, &mut room), Ok(2));
    assert_eq!(room, [1, 2, 7]);
    assert_eq!(children(&grown(), COUNT, 3, &mut []), Ok(0));
}

#[test]
fn refuses_to_list() {
    let mut room = [7; 1];
    assert_eq!(children(&grown(), COUNT, 0, &mut room), Err(Refusal::NoRoom { needed: 2 }));
    assert_eq!(children(&grown(), COUNT, 4, &mut room), Err(Refusal::UnknownNode));
    assert_eq!(children(&grown(), 5, 5, &mut room), Err(Refusal::UnsoundTree));
    assert_eq!(room, [7; 1]);
}

#[test]
fn solves() {
    let mut room = [99; 3];
    let mut nodes = grown();
    assert_eq!(solution(&nodes, COUNT, &mut room), Ok(Solution { length: 1, node: 2 }));
    assert_eq!(room, [30, 99, 99]);
    nodes[1].max_score += f32::EPSILON;
    assert_eq!(solution(&nodes, COUNT, &mut room), Ok(Solution { length: 2, node: 3 }));
    assert_eq!(room, [0, 7, 99]);
    assert_eq!(solution(&nodes, 1, &mut []), Ok(Solution { length: 0, node: 0 }));
}

#[test]
fn refuses_to_solve() {
    let mut room = [7; 1];
    assert_eq!(solution(&grown(), COUNT, &mut []), Err(Refusal::NoRoom { needed: 1 }));
    assert_eq!(solution(&grown(), 5, &mut room), Err(Refusal::UnsoundTree));
    assert_eq!(room, [7; 1]);
}

/// By every function that takes a tree.
fn assert_unsound(nodes: [Node; 5], count: usize) {
    let refusals = [
        refusal(nodes, |nodes| insert(nodes, count, 0, 0, 0)),
        refusal(nodes, |nodes| backpropagate(nodes, count, 0, 0, 0.0)),
        refusal(nodes, |nodes| children(nodes, count, 0, &mut [0; 5])),
        refusal(nodes, |nodes| solution(nodes, count, &mut [0; 5])),
    ];
    assert_eq!(refusals, [Refusal::UnsoundTree; 4]);
}

#[test]
fn takes_no_unsound_tree() {
    assert_unsound(grown(), 0);
    assert_unsound(grown(), 6);
    let wrong: [Damage; 16] = [
        (0, |node| node.parent = 1),
        (0, |node| node.action = 30),
        (2, |node| node.parent = 2),
        (2, |node| node.action = 31),
        (1, |node| node.visits = f32::NAN),
        (2, |node| node.visits = -LEAST),
        (2, |node| node.visits = LEAST),
        (1, |node| node.visits = VISITS_MOST + 2.0),
        (1, |node| node.score_sum = f32::NAN),
        (1, |node| (node.visits, node.score_sum) = (2.0, ABOVE_TWO)),
        (1, |node| (node.visits, node.score_sum) = (2.0, -ABOVE_TWO)),
        (1, |node| node.max_score = f32::NAN),
        (1, |node| node.max_score = -0.0),
        (1, |node| node.max_score = ABOVE_ONE),
        (3, |node| node.unused = 1 << 31),
        (3, |node| node.unused = u32::MAX),
    ];
    for (at, damage) in wrong {
        let mut nodes = grown();
        damage(&mut nodes[at]);
        assert_unsound(nodes, COUNT);
    }
}
