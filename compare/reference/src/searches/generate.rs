//! Random searches: each whole, then refused before any work, refused later, and now and then wrong in two ways at once.

use super::answer::{answer, Answer};
use super::call::Call;
use super::options::Options;
use super::rust::{Run, Tally};
use super::{contexts, early, later, logarithms};
use crate::random::Random;

/// What is wrong in a call of two wrongs.
pub const TWO_WRONGS: &str = "two wrongs";
/// Some runs lend more than is used, by up to so much.
const MORE: u32 = 80;

/// A call, what it must answer, and what is counted of it.
pub struct Case {
    pub call: Call,
    pub answer: Answer,
    /// What is wrong with it, if anything is.
    pub wrong: Option<&'static str>,
    /// Of a whole search.
    pub tally: Tally,
}

impl Case {
    pub fn wrong(call: Call, run: &Run, wrong: &'static str) -> Case {
        Case { wrong: Some(wrong), ..Case::new(call, run) }
    }

    pub fn new(call: Call, run: &Run) -> Case {
        Case { answer: answer(&call, run), call, wrong: None, tally: Tally::default() }
    }

    pub fn whole(call: Call, run: Run) -> Case {
        let case = Case::new(call, &run);
        Case { tally: run.tally, ..case }
    }
}

/// The calls of the searches by their number in a run.
pub fn cases(seed: u64, count: u64) -> impl Iterator<Item = Case> {
    (0..count).flat_map(move |number| of_search(&mut Random::numbered(seed, number), number))
}

fn of_search(random: &mut Random, number: u64) -> Vec<Case> {
    let (context, options, seed) =
        (contexts::context(random), Options::random(random), random.bits());
    let new = if random.one_in(8) { Run::at_threshold } else { Run::new };
    let run = new(&context, options, seed);
    let call = lent(random, &run);
    let mut cases = vec![refused_early(random, &run, &call, number)];
    cases.extend(refused_later(random, &run, &call, number));
    if random.one_in(4) {
        cases.push(wrong_twice(random, &run, &call));
    }
    cases.push(Case::whole(call, run));
    cases
}

/// Just what is used of all, or more of some.
fn lent(random: &mut Random, run: &Run) -> Call {
    let mut call = Call::of(run);
    let mut more = || if random.one_in(2) { 0 } else { random.between(1, MORE) as usize };
    call.records += more();
    call.room += more();
    let (draws, logarithms) = (more(), more());
    call.draws.extend((0..draws).map(|_| random.bits() as u8));
    if logarithms > 0 {
        call.logarithms = logarithms::longer(random, logarithms);
    }
    call
}

/// The wrongs take turns.
fn refused_early(random: &mut Random, run: &Run, call: &Call, number: u64) -> Case {
    let (name, spoil) = early::WRONGS[number as usize % early::WRONGS.len()];
    let mut call = call.clone();
    spoil(random, &mut call);
    Case::wrong(call, run, name)
}

/// The wrongs take turns, where there is something to spoil.
fn refused_later(random: &mut Random, run: &Run, call: &Call, number: u64) -> Option<Case> {
    let (name, spoil) = later::WRONGS[number as usize % later::WRONGS.len()];
    let mut call = call.clone();
    spoil(random, run, &mut call).then(|| Case::wrong(call, run, name))
}

/// Two at once, of which one comes first; a search that has nothing to spoil may be whole after all.
fn wrong_twice(random: &mut Random, run: &Run, call: &Call) -> Case {
    let mut call = call.clone();
    for _ in 0..2 {
        if random.one_in(2) {
            random.any(&early::WRONGS).1(random, &mut call);
        } else {
            random.any(&later::WRONGS).1(random, run, &mut call);
        }
    }
    Case::wrong(call, run, TWO_WRONGS)
}
