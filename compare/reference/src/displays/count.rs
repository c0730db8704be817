//! What the Display lines of a run met: refusals, rooms about as long as the line, negative durabilities, and
//! numbers that are wider than their fields.

use super::line::ROOM;
use crate::refusal::Refusal;
use crate::room::fitting;
use crate::states::limits::{checked_context, checked_state};
use crate::states::tally::{Event, Tally};
use crate::states::Numbers;
use crafty::CraftState;

const NEGATIVE: &str = "negative durability";
/// Those numbers of a line that can outgrow their fields: no durability_max inside the limits does.
const OUTGROWN: [&str; 7] = [
    "progress wider than its field",
    "progress_target wider than its field",
    "quality wider than its field",
    "quality_target wider than its field",
    "durability wider than its field",
    "cp wider than its field",
    "cp_max wider than its field",
];
const ROOMS: [&str; 6] = [
    "no room",
    "room more than one short",
    "room one short",
    "room exact",
    "room one longer",
    "room more than one longer",
];

/// Every event that can be met, in the order of the report.
pub fn events() -> Vec<Event> {
    let mut events = [1, 2, 6].map(Event::Refused).to_vec();
    events.push(Event::Display(NEGATIVE));
    events.extend(OUTGROWN.map(Event::Display));
    events.extend(ROOMS.map(Event::Display));
    events
}

pub fn count(tally: &mut Tally, numbers: &Numbers) -> Result<(), Refusal> {
    let context = checked_context(numbers)?;
    let state = checked_state(numbers, &context)?;
    if state.durability < 0 {
        tally.add(Event::Display(NEGATIVE));
    }
    outgrown(&state).for_each(|field| tally.add(Event::Display(field)));
    let line = state.to_string();
    let room = numbers[ROOM] as usize;
    tally.add(Event::Display(room_beside(room, line.len())));
    fitting(room, line).map(drop)
}

fn outgrown(state: &CraftState) -> impl Iterator<Item = &'static str> {
    let context = state.context;
    let wider = [
        state.progress > 99_999,
        context.progress_target > 99_999,
        state.quality > 99_999,
        context.quality_target > 99_999,
        state.durability < -9,
        state.cp > 999,
        context.cp_max > 999,
    ];
    OUTGROWN.into_iter().zip(wider).filter(|(_, is_wider)| *is_wider).map(|(field, _)| field)
}

fn room_beside(room: usize, needed: usize) -> &'static str {
    match room {
        0 => ROOMS[0],
        _ if room + 1 < needed => ROOMS[1],
        _ if room + 1 == needed => ROOMS[2],
        _ if room == needed => ROOMS[3],
        _ if room == needed + 1 => ROOMS[4],
        _ => ROOMS[5],
    }
}
