//! One random tree that grows, and the calls that it sees: after each that may change it, its children and its solution.

use super::answer::answer;
use super::call::{Call, Function};
use super::damage::{no_counts, DAMAGES};
use super::floats;
use super::generate::Case;
use super::record::{Record, NO_ACTION};
use super::sound::{upward, LAST_ACTION};
use crate::generate::{known_set, set};
use crate::random::Random;

/// So many nodes are asked for their children at a time.
const LOOKS_MOST: u64 = 8;
const RECORDS_MOST: u32 = 20;
/// Some trees have this many.
const RECORDS_MANY: u32 = 80;

pub struct Sequence {
    records: Vec<Record>,
    count: u64,
    pub cases: Vec<Case>,
}

impl Sequence {
    /// A new tree, or one that is made up.
    pub fn start(random: &mut Random) -> Sequence {
        let most = if random.one_in(8) { RECORDS_MANY } else { RECORDS_MOST };
        let length = random.between(0, most) as usize;
        let records: Vec<Record> = (0..length).map(|_| any_record(random)).collect();
        let mut sequence = Sequence { records, count: 0, cases: Vec::new() };
        if length == 0 || random.one_in(2) {
            let call = Call::new(Function::New, &sequence.records, 0);
            let unused = known_set(random);
            sequence.ask(random, Call { unused, ..call });
        } else {
            sequence.count = made_up(random, &mut sequence.records);
        }
        sequence
    }

    pub fn step(&mut self, random: &mut Random) {
        if self.count == 0 {
            return;
        }
        let call = match random.below(8) {
            0..=2 => self.insertion(random),
            3..=6 => self.backpropagation(random),
            _ => return self.ask_damaged(random),
        };
        self.ask(random, call);
    }

    fn ask(&mut self, random: &mut Random, call: Call) {
        let case = Case::new(call);
        self.count = case.answer.count(&case.call);
        self.records = case.answer.records.clone();
        self.cases.push(case);
        self.look(random);
    }

    /// The children of every node, of a large tree of some; the solution; and a new tree over some of the records.
    fn look(&mut self, random: &mut Random) {
        for node in 0..self.count.min(LOOKS_MOST) {
            let node = if self.count > LOOKS_MOST { self.node(random) } else { node };
            let call = Call { node, ..self.call(Function::Children) };
            self.cases.push(Case::new(in_room(random, call)));
        }
        let call = self.call(Function::Solution);
        self.cases.push(Case::new(in_room(random, call)));
        let length = random.place(self.records.len() + 1);
        let call = Call::new(Function::New, &self.records[..length], self.count);
        self.cases.push(Case::new(Call { unused: set(random), ..call }));
    }

    fn call(&self, function: Function) -> Call {
        Call::new(function, &self.records, self.count)
    }

    /// Mostly below the count.
    fn node(&self, random: &mut Random) -> u64 {
        match random.below(32) {
            0 => random.any(&[self.count, self.count + 1, self.count + (1 << 32), u64::MAX]),
            _ => number_below(random, self.count),
        }
    }

    fn insertion(&self, random: &mut Random) -> Call {
        let action = match random.below(16) {
            0 => random.any(&[LAST_ACTION, 31, 32, 128, 255]),
            _ => known_action(random),
        };
        let unused = set(random);
        Call { node: self.node(random), action, unused, ..self.call(Function::Insert) }
    }

    /// Mostly to a node above the start.
    fn backpropagation(&self, random: &mut Random) -> Call {
        let node = self.node(random);
        let target = match random.below(8) {
            0 => self.node(random),
            _ if node >= self.count => 0,
            _ => random.any(&upward(&self.records, node)),
        };
        let score = match random.below(16) {
            0 => random.any(&floats::NO_SCORES),
            _ => floats::score(random),
        };
        Call { node, target, score, ..self.call(Function::Backpropagate) }
    }

    /// The tree itself stays as it was.
    fn ask_damaged(&mut self, random: &mut Random) {
        let mut call = match random.below(4) {
            0 => self.insertion(random),
            1 => self.backpropagation(random),
            2 => Call { node: self.node(random), ..self.call(Function::Children) },
            _ => self.call(Function::Solution),
        };
        call.room = self.records.len();
        if random.one_in(8) {
            call.count = random.any(&no_counts(self.records.len()));
            self.cases.push(Case::damaged(call, "count"));
            return;
        }
        let (name, apply) = random.any(&DAMAGES);
        let most = if random.one_in(8) { self.records.len() } else { self.count as usize };
        let number = random.place(most);
        apply(number as u64, &mut call.records[number]);
        self.cases.push(Case::damaged(call, name));
    }
}

/// Makes the first of the records a sound tree, and answers how many are used.
pub fn made_up(random: &mut Random, records: &mut [Record]) -> u64 {
    let count = u64::from(random.between(1, records.len() as u32));
    for number in 0..count {
        let parent = if number == 0 { 0 } else { number_below(random, number) };
        let action = if number == 0 { NO_ACTION } else { known_action(random) };
        let visits = floats::visits(random);
        let score_sum = floats::score_sum(random, visits);
        let max_score = floats::max_score(random);
        let placed = Record::new(parent, action, known_set(random));
        records[number as usize] = Record { visits, score_sum, max_score, ..placed };
    }
    count
}

/// Too short, just enough, or longer.
fn in_room(random: &mut Random, call: Call) -> Call {
    let enough = Call { room: call.records.len(), ..call };
    let needed = answer(&enough).value as usize;
    let room = match random.below(8) {
        0 => 0,
        1 => needed.saturating_sub(1),
        2 => random.place(needed + 1),
        3 | 4 => needed,
        5 => needed + 1,
        _ => needed + random.between(2, RECORDS_MOST) as usize,
    };
    Call { room, ..enough }
}

pub fn known_action(random: &mut Random) -> u8 {
    random.between(0, u32::from(LAST_ACTION)) as u8
}

/// Often the last, so that some trees are deep.
fn number_below(random: &mut Random, end: u64) -> u64 {
    if random.one_in(2) {
        end - 1
    } else {
        random.place(end as usize) as u64
    }
}

/// Anything, as a spare record holds.
pub fn any_record(random: &mut Random) -> Record {
    let bits = u64::from(random.bits());
    Record {
        parent: random.any(&[0, 1, bits, bits << 32, u64::MAX]),
        action: random.bits() as u8,
        visits: floats::any(random),
        score_sum: floats::any(random),
        max_score: floats::any(random),
        unused: random.bits(),
    }
}
