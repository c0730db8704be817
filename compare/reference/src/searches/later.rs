//! What is wrong at an iteration or after all: draws, records and the path.

use super::call::Call;
use super::rust::{Mark, Run};
use crate::random::Random;

/// What is done to a call that is made of what the Rust did; false where that has nothing to spoil.
pub type Wrong = (&'static str, fn(&mut Random, &Run, &mut Call) -> bool);

pub const WRONGS: [Wrong; 4] = [
    ("draws used up", cut_draws),
    ("a draw too high", raise_draw),
    ("too few records", cut_records),
    ("no room for the path", cut_room),
];

fn cut_draws(random: &mut Random, run: &Run, call: &mut Call) -> bool {
    let Some(place) = any_place(random, run.grown.draws.len()) else { return false };
    call.draws.truncate(place);
    true
}

/// To the size of its set, or above that.
fn raise_draw(random: &mut Random, run: &Run, call: &mut Call) -> bool {
    let Some(place) = any_place(random, run.grown.draws.len().min(call.draws.len())) else {
        return false;
    };
    let end = run.grown.draws[place].end;
    let draw = random.between(end, u32::from(u8::MAX));
    call.draws[place] = random.any(&[end, draw]) as u8;
    true
}

/// To one too few for an iteration, or fewer, that do for those before it.
fn cut_records(random: &mut Random, run: &Run, call: &mut Call) -> bool {
    let grows = |marks: &&[Mark]| marks[0].records < marks[1].records;
    let growing: Vec<&[Mark]> = run.marks.windows(2).filter(grows).collect();
    let Some(place) = any_place(random, growing.len()) else { return false };
    let (least, most) = (growing[place][0].records as u32, growing[place][1].records as u32 - 1);
    let some = random.between(least, most);
    call.records = random.any(&[some, most]) as usize;
    true
}

fn cut_room(random: &mut Random, run: &Run, call: &mut Call) -> bool {
    let Some(some) = any_place(random, run.grown.actions.len()) else { return false };
    call.room = random.any(&[some, run.grown.actions.len() - 1]);
    true
}

fn any_place(random: &mut Random, length: usize) -> Option<usize> {
    (length > 0).then(|| random.place(length))
}
