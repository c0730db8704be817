//! What the replays of a run met: actions executed, results, combo prices and lengths.

use super::line::Replay;
use super::report::{checked_list, report, Report};
use crate::refusal::Refusal;
use crate::states::limits::checked_context;
use crate::states::mode::Mode;
use crate::states::tally::{craft_events, Event, Tally};
use crafty::{Action, CraftContext, CraftResult};

/// The least and the greatest number executed, of each class of lengths; no craft has more than 255.
const LENGTHS: [(usize, usize); 7] =
    [(0, 0), (1, 1), (2, 9), (10, 39), (40, 99), (100, 199), (200, 255)];

/// Every event that can be met, in the order of the report.
pub fn events() -> Vec<Event> {
    let mut events = vec![Event::Refused(1), Event::Refused(3)];
    for mode in Mode::BOTH {
        events.extend(craft_events(mode));
        events.push(Event::Illegal(mode));
        events.extend(LENGTHS.map(|(least, most)| Event::Length(mode, least, most)));
    }
    events
}

pub fn count(tally: &mut Tally, replay: &Replay) -> Result<(), Refusal> {
    let context = checked_context(&replay.context)?;
    let actions = checked_list(replay)?;
    let report = report(&context, replay.mode, actions.clone());
    count_end(tally, replay.mode, &report);
    count_executed(tally, &context, replay.mode, &actions[..report.executed]);
    Ok(())
}

fn count_end(tally: &mut Tally, mode: Mode, report: &Report) {
    tally.add_result(mode, &report.result);
    check_score(report);
    let is_invalid = matches!(report.result, Some(CraftResult::InvalidActionFailure));
    if is_invalid && !report.state.available_moves.is_empty() {
        tally.add(Event::Illegal(mode));
    }
    let holds = |(least, most): &(usize, usize)| (*least..=*most).contains(&report.executed);
    let (least, most) = LENGTHS.into_iter().find(holds).expect("a length of at most 255");
    tally.add(Event::Length(mode, least, most));
}

/// A finished score is below 1, and at least -1 where step_max is above 0.
fn check_score(report: &Report) {
    let Some(CraftResult::Finished(score)) = report.result else { return };
    let least = if report.state.context.step_max == 0 { f32::NEG_INFINITY } else { -1.0 };
    assert!((least..1.0).contains(&score), "a score of {score} in {:?}", report.state);
}

fn count_executed(tally: &mut Tally, context: &CraftContext, mode: Mode, actions: &[Action]) {
    let mut state = mode.start(context);
    for action in actions {
        let next = mode.execute(&state, *action);
        tally.add_execution(mode, &state, &next);
        state = next;
    }
}
