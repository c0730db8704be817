//! Fixed trees around the counts of records where `solution` goes another way, in several shapes.

use super::answer::answer;
use super::call::{Call, Function};
use super::floats::{self, NANS};
use super::generate::Case;
use super::record::{Record, NO_ACTION};
use super::sequence::known_action;
use super::ways::TABLE;
use crate::generate::known_set;
use crate::random::Random;

/// The parent of the record of a number.
type Shape = fn(&mut Random, u64) -> u64;

/// One path; one node's children; each below any before it; and deep, each below one of the few before it.
const SHAPES: [Shape; 4] = [
    |_, number| number - 1,
    |_, _| 0,
    |random, number| random.place(number as usize) as u64,
    |random, number| number - 1 - random.place(number.min(NEAR) as usize) as u64,
];
const NEAR: u64 = 8;
/// So few that many children are equal, and below the score that is propagated.
const MAXIMA: [f32; 3] = [0.0, 0.25, GREATEST];
const GREATEST: f32 = 0.5;
const VISITS: u32 = 9;
const SEED: u64 = 1;

pub fn cases() -> impl Iterator<Item = Case> {
    counts().flat_map(|count| SHAPES.into_iter().flat_map(move |shape| cases_of(shape, count)))
}

/// Each bound, one below it and one above.
fn counts() -> impl Iterator<Item = u64> {
    [*TABLE.start(), *TABLE.end()].into_iter().flat_map(|bound| bound - 1..=bound + 1)
}

/// The solution before and after a back-propagation, which leads it through the start.
fn cases_of(shape: Shape, count: u64) -> Vec<Case> {
    let tree = tree(shape, count);
    let call = Call::new(Function::Backpropagate, &tree, count);
    let propagated = Case::new(Call { node: count / 2, score: 1.0, ..call });
    let mut cases = solutions(&tree, count);
    cases.extend(outside(&tree, count));
    cases.extend(solutions(&propagated.answer.records, count));
    cases.push(propagated);
    cases
}

/// A sound tree whose last record is as good as any, and behind it one that would be the best child of the root.
fn tree(shape: Shape, count: u64) -> Vec<Record> {
    let random = &mut Random::numbered(SEED, count);
    let mut records = vec![Record::new(0, NO_ACTION, known_set(random))];
    records.extend((1..count).map(|number| {
        let visits = random.between(0, VISITS) as f32;
        let score_sum = floats::score_sum(random, visits);
        let max_score = random.any(&MAXIMA);
        let parent = shape(random, number);
        let placed = Record::new(parent, known_action(random), known_set(random));
        Record { visits, score_sum, max_score, ..placed }
    }));
    records[count as usize - 1].max_score = GREATEST;
    records.push(Record { max_score: 1.0, ..Record::new(0, 0, 0) });
    records
}

/// In rooms one short, just enough, and longer.
fn solutions(records: &[Record], count: u64) -> Vec<Case> {
    let most = records.len();
    let needed = answer(&solution(records, count, most)).value as usize;
    let rooms = [needed - 1, needed, most].into_iter();
    rooms.map(|room| Case::new(solution(records, count, room))).collect()
}

/// A max_score that no record may have, in the last that is used and in the one behind it, where it does no harm.
fn outside(records: &[Record], count: u64) -> Vec<Case> {
    let mut cases = Vec::new();
    for max_score in [NANS[0], f32::NEG_INFINITY] {
        for number in [count - 1, count] {
            let mut records = records.to_vec();
            records[number as usize].max_score = max_score;
            cases.push(Case::new(solution(&records, count, records.len())));
        }
    }
    cases
}

fn solution(records: &[Record], count: u64, room: usize) -> Call {
    Call { room, ..Call::new(Function::Solution, records, count) }
}
