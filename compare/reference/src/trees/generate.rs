//! Random calls: those of sequences of insertions and back-propagations, each on a tree of its own.

use super::answer::{answer, Answer};
use super::call::{Call, Function};
use super::record::Record;
use super::sequence::Sequence;
use super::sound::upward;
use crate::random::Random;

pub const LAST_OF_EQUALS: &str = "solution, the last of equals";
const STEPS_MOST: u32 = 24;

/// A call, what it must answer, and what is rare in it.
pub struct Case {
    pub call: Call,
    pub answer: Answer,
    pub met: Option<String>,
}

impl Case {
    pub fn new(call: Call) -> Case {
        let answer = answer(&call);
        let met = if answer.number == 0 { rare(&call, &answer) } else { None };
        Case { call, answer, met: met.map(str::to_string) }
    }

    /// Over a tree that was damaged.
    pub fn damaged(call: Call, damage: &str) -> Case {
        let case = Case::new(call);
        let met = match case.answer.number {
            7 => Some(format!("unsound, {damage}")),
            0 => Some("damaged from count on, answered".to_string()),
            _ => None,
        };
        Case { met, ..case }
    }
}

/// The calls of the trees by their number in a run.
pub fn cases(seed: u64, count: u64) -> impl Iterator<Item = Case> {
    (0..count).flat_map(move |number| {
        let random = &mut Random::numbered(seed, number);
        let mut sequence = Sequence::start(random);
        for _ in 0..random.between(1, STEPS_MOST) {
            sequence.step(random);
        }
        sequence.cases
    })
}

fn rare(call: &Call, answer: &Answer) -> Option<&'static str> {
    match call.function {
        Function::Backpropagate if met_zero(call) => Some("back-propagation, -0 meets +0"),
        Function::Backpropagate if rounds(call) => Some("back-propagation, a sum is rounded"),
        Function::Solution if takes_last(call, answer) => Some(LAST_OF_EQUALS),
        _ => None,
    }
}

fn met_zero(call: &Call) -> bool {
    let is_zero = |node: u64| call.records[node as usize].max_score == 0.0;
    let is_negative_zero = call.score == 0.0 && call.score.is_sign_negative();
    is_negative_zero && path(call).into_iter().any(is_zero)
}

fn rounds(call: &Call) -> bool {
    let is_rounded = |node: u64| {
        let sum = call.records[node as usize].score_sum;
        f64::from(sum + call.score) != f64::from(sum) + f64::from(call.score)
    };
    path(call).into_iter().any(is_rounded)
}

/// From the start to the target.
fn path(call: &Call) -> Vec<u64> {
    upward(&call.records, call.node).into_iter().take_while(|node| *node >= call.target).collect()
}

/// Somewhere on the way to the last node an earlier child has the same greatest score.
fn takes_last(call: &Call, answer: &Answer) -> bool {
    let records = &call.records;
    let is_tied = |node: u64| {
        let Record { parent, max_score, .. } = records[node as usize];
        let mut earlier = (1..node).map(|other| records[other as usize]);
        earlier.any(|other| other.parent == parent && other.max_score == max_score)
    };
    upward(records, answer.node).into_iter().any(is_tied)
}
