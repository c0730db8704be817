//! Counts of what a run met: of any craft the actions executed, results and combo prices, and beyond them
//! the rules that decided in states, the lengths of replays, and what Display lines show.

use super::mode::Mode;
use super::result::{self, RESULTS};
use super::rules::Decision;
use crate::refusal::Refusal;
use crafty::{Action, CraftResult, CraftState};
use std::collections::HashMap;
use std::fmt;

const COMBO_PRICE: u32 = 18;
/// The pairs of a combo and an action that cost less together.
const DISCOUNTS: [(Action, Action); 3] = [
    (Action::BasicTouch, Action::StandardTouch),
    (Action::StandardTouch, Action::AdvancedTouch),
    (Action::Observe, Action::AdvancedTouch),
];

#[derive(Clone, Copy, PartialEq, Eq, Hash)]
pub enum Event {
    Refused(u8),
    Result(Mode, &'static str),
    Executed(Mode, usize),
    Discounted(Mode, usize),
    Decided(Mode, Decision),
    /// Replay met an action outside the moves.
    Illegal(Mode),
    /// The least and the greatest number of actions executed.
    Length(Mode, usize, usize),
    /// What a Display line shows, or how long its room is.
    Display(&'static str),
}

impl Event {
    pub fn refused(refusal: Refusal) -> Event {
        Event::Refused(refusal.number())
    }
}

impl fmt::Display for Event {
    fn fmt(&self, out: &mut fmt::Formatter) -> fmt::Result {
        match self {
            Event::Refused(number) => write!(out, "refused {number}"),
            Event::Result(mode, result) => write!(out, "{mode} result {result}"),
            Event::Executed(mode, action) => {
                write!(out, "{mode} executed {}", Action::ACTIONS[*action].name())
            }
            Event::Discounted(mode, pair) => {
                let (combo, action) = DISCOUNTS[*pair];
                write!(out, "{mode} combo price of {} on {}", action.name(), combo.name())
            }
            Event::Decided(mode, decision) => write!(out, "{mode} rule {decision}"),
            Event::Illegal(mode) => write!(out, "{mode} stopped by an illegal action"),
            Event::Length(mode, least, most) => write!(out, "{mode} length {least} to {most}"),
            Event::Display(what) => write!(out, "{what}"),
        }
    }
}

/// Every result, every action executed and every combo price charged.
pub fn craft_events(mode: Mode) -> Vec<Event> {
    let mut events = RESULTS.map(|result| Event::Result(mode, result)).to_vec();
    events.extend((0..Action::ACTIONS.len()).map(|action| Event::Executed(mode, action)));
    events.extend((0..DISCOUNTS.len()).map(|pair| Event::Discounted(mode, pair)));
    events
}

/// The events in the order of the report, how often each was met, and the scores of finished crafts.
pub struct Tally {
    events: Vec<Event>,
    counts: HashMap<Event, u64>,
    fixed: Scores,
    random: Scores,
    is_random: bool,
}

/// The least and the greatest score of those that are finite, which none is where step_max is 0.
#[derive(Default)]
struct Scores(Option<(f32, f32)>);

impl Scores {
    fn add(&mut self, score: f32) {
        if score.is_finite() {
            let (least, greatest) = self.0.unwrap_or((score, score));
            self.0 = Some((least.min(score), greatest.max(score)));
        }
    }

    fn write(&self, out: &mut fmt::Formatter, of: &str) -> fmt::Result {
        let Some((least, greatest)) = self.0 else { return Ok(()) };
        let [low, high] = [least, greatest].map(result::hex);
        writeln!(out, "finished scores of {of}: {low} ({least}) to {high} ({greatest})")
    }
}

impl Tally {
    pub fn new(events: Vec<Event>) -> Tally {
        let counts = events.iter().map(|event| (*event, 0)).collect();
        let (fixed, random) = (Scores::default(), Scores::default());
        Tally { events, counts, fixed, random, is_random: false }
    }

    /// What follows is no longer of the fixed list.
    pub fn go_random(&mut self) {
        self.is_random = true;
    }

    /// An event that was thought impossible has no count and stops the run.
    pub fn add(&mut self, event: Event) {
        *self.counts.get_mut(&event).unwrap_or_else(|| panic!("unforeseen: {event}")) += 1;
    }

    pub fn add_result(&mut self, mode: Mode, result: &Option<CraftResult>) {
        self.add(Event::Result(mode, result::name(result)));
        if let Some(CraftResult::Finished(score)) = result {
            let scores = if self.is_random { &mut self.random } else { &mut self.fixed };
            scores.add(*score);
        }
    }

    pub fn add_execution(&mut self, mode: Mode, before: &CraftState, after: &CraftState) {
        let action = after.action.expect("an executed action");
        self.add(Event::Executed(mode, action as usize));
        let pair = before.previous_combo_action.map(|combo| (combo, action));
        let Some(pair) = DISCOUNTS.iter().position(|discount| Some(*discount) == pair) else {
            return;
        };
        assert_eq!(before.cp - after.cp, COMBO_PRICE, "{} in {before:?}", action.name());
        self.add(Event::Discounted(mode, pair));
    }
}

impl fmt::Display for Tally {
    fn fmt(&self, out: &mut fmt::Formatter) -> fmt::Result {
        for event in &self.events {
            writeln!(out, "{:>10} {event}", self.counts[event])?;
        }
        self.fixed.write(out, "the fixed list")?;
        self.random.write(out, "random ones")?;
        match self.events.iter().min_by_key(|event| self.counts[event]) {
            Some(least) => writeln!(out, "least: {} {least}", self.counts[least]),
            None => Ok(()),
        }
    }
}
