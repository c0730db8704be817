//! What the states of a run met: actions executed, results, rules that decided, and combo prices.

use super::limits::{checked_context, checked_state};
use super::line::Numbers;
use super::mode::Mode;
use super::own_rules::own_rule;
use super::rules::{decide, has_ended, Decision};
use super::tally::{craft_events, Event, Tally};
use crate::refusal::Refusal;
use crafty::{Action, CraftState};

/// The rules that are no action's own; those after the second are strict.
const SHARED_RULES: [Decision; 9] = [
    Decision::TooDear,
    Decision::QualityFull,
    Decision::TrainedEyeAlone,
    Decision::NotTrainedEye,
    Decision::MuscleMemory,
    Decision::Veneration,
    Decision::Observing,
    Decision::FinishesTooEarly,
    Decision::Innovation,
];

/// Every event that can be met, in the order of the report.
pub fn events() -> Vec<Event> {
    let mut events = vec![Event::Refused(1), Event::Refused(2)];
    for mode in Mode::BOTH {
        events.extend(craft_events(mode));
        let shared = if mode == Mode::Plain { 2 } else { SHARED_RULES.len() };
        events.extend(SHARED_RULES[..shared].iter().map(|rule| Event::Decided(mode, *rule)));
        for action in Action::ACTIONS {
            events.extend(own_decisions(*action, mode).map(|rule| Event::Decided(mode, rule)));
        }
    }
    events
}

fn own_decisions(action: Action, mode: Mode) -> impl Iterator<Item = Decision> {
    let number = action as usize;
    // In strict mode TrainedEye is let through by the rule that lets it through alone.
    let can_pass = !(action == Action::TrainedEye && mode == Mode::Strict);
    let conditions = own_rule(action, mode).iter();
    let held = conditions.map(move |failing| Decision::HeldBack(number, *failing));
    can_pass.then_some(Decision::LetThrough(number)).into_iter().chain(held)
}

pub fn count(tally: &mut Tally, numbers: &Numbers) -> Result<(), Refusal> {
    let context = checked_context(numbers)?;
    let state = checked_state(numbers, &context)?;
    for mode in Mode::BOTH {
        count_in(tally, mode, &mode.with_moves(&state));
    }
    Ok(())
}

fn count_in(tally: &mut Tally, mode: Mode, state: &CraftState) {
    tally.add_result(mode, &state.check_result());
    if has_ended(state) {
        assert!(state.available_moves.is_empty(), "an ended state has moves");
        return;
    }
    for action in state.context.action_pool.to_vec() {
        let decision = decide(state, action, mode);
        let legal = state.available_moves.contains(action);
        assert_eq!(decision.is_legal(), legal, "{mode} {decision} in {state:?}");
        tally.add(Event::Decided(mode, decision));
        if legal {
            tally.add_execution(mode, state, &mode.execute(state, action));
        }
    }
}
