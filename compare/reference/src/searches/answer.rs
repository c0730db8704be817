//! What a search answers, and what its records and its room hold then: by the Rust, up to the iteration that is refused. The
//! Rust has no refusals, so these are a model of request E7.

use super::call::Call;
use super::logarithms;
use super::rust::{Grown, Mark, Run};
use crate::refusal::Refusal;
use crate::states::fields::{told_numbers, StateNumbers};
use crate::texts::checked_context;
use crate::trees::Record;
use crafty::{CraftContext, CraftState};

/// The numbers that come back.
#[derive(Clone, Copy, PartialEq, Eq, Default, Debug)]
pub struct Found {
    pub number: u32,
    pub iterations: u32,
    pub value: u64,
    pub records: u64,
    pub draws: u64,
    pub path: u64,
    pub node: u64,
    pub state: StateNumbers,
}

pub struct Answer {
    pub found: Found,
    /// The first of the records; the others stay as they were.
    pub records: Vec<Record>,
    pub room: Vec<u8>,
}

/// A call that is made of what the Rust did: its draws are the Rust's, up to one that is refused.
pub fn answer(call: &Call, run: &Run) -> Answer {
    let early = |refusal, state| stopped(call, refusal, Found { state, ..Found::default() }, &[]);
    let context = match checked_context(&call.context.map(u64::from)) {
        Ok(context) => context,
        Err(refusal) => return early(refusal, StateNumbers::default()),
    };
    match check(call, &context) {
        Ok(()) => grown(call, run),
        Err(refusal) => early(refusal, start(&context)),
    }
}

/// Before any work.
fn check(call: &Call, context: &CraftContext) -> Result<(), Refusal> {
    let is_search = call.options.are_inside()
        && logarithms::are_inside(&call.logarithms)
        && context.step_max > 0;
    if !is_search {
        return Err(Refusal::BadSearch);
    }
    if call.records == 0 {
        return Err(Refusal::RoomTooShort { needed: 1 });
    }
    Ok(())
}

fn grown(call: &Call, run: &Run) -> Answer {
    let pairs = run.marks.windows(2).enumerate();
    let mut refusals = pairs.filter_map(|(iteration, marks)| {
        refused(call, run, marks[0], marks[1]).map(|refusal| (iteration, refusal))
    });
    if let Some((iteration, refusal)) = refusals.next() {
        let grown = run.after(iteration);
        return stopped(call, refusal, counted(iteration, &grown, run), &grown.records);
    }
    let grown = &run.grown;
    let found = counted(run.marks.len() - 1, grown, run);
    if grown.actions.len() > call.room {
        let refusal = Refusal::RoomTooShort { needed: grown.actions.len() };
        return stopped(call, refusal, found, &grown.records);
    }
    let mut room = call.lent_room();
    room[..grown.actions.len()].copy_from_slice(&grown.actions);
    let (path, node) = (grown.actions.len() as u64, grown.node as u64);
    let found = Found { path, node, state: grown.state, ..found };
    Answer { found, records: grown.records.clone(), room }
}

/// Whether an iteration is refused that would go from one mark to the next.
fn refused(call: &Call, run: &Run, before: Mark, after: Mark) -> Option<Refusal> {
    let mut wanted = before.draws..after.draws;
    let wrong = wanted.find_map(|place| match call.draws.get(place) {
        None => Some(Refusal::NoDraw),
        Some(draw) if u32::from(*draw) >= run.grown.draws[place].end => Some(Refusal::DrawTooHigh),
        Some(_) => None,
    });
    let needed = after.records;
    wrong.or((needed > call.records).then_some(Refusal::RoomTooShort { needed }))
}

/// What so many iterations used; the rest as for a refusal.
fn counted(iterations: usize, grown: &Grown, run: &Run) -> Found {
    Found {
        iterations: iterations as u32,
        records: grown.records.len() as u64,
        draws: grown.draws.len() as u64,
        state: start(&run.context),
        ..Found::default()
    }
}

fn stopped(call: &Call, refusal: Refusal, found: Found, records: &[Record]) -> Answer {
    let number = u32::from(refusal.number());
    let value = refusal.also().unwrap_or(0) as u64;
    let found = Found { number, value, ..found };
    Answer { found, records: records.to_vec(), room: call.lent_room() }
}

fn start(context: &CraftContext) -> StateNumbers {
    told_numbers(&CraftState::new(context))
}
