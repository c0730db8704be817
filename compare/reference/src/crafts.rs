//! The lines that our program `states` answers: craft states, replays and Display lines.

use crate::ask::ask;
use crate::displays;
use crate::lined::{Asked, Lined};
use crate::places::Places;
use crate::refusal::Refusal;
use crate::replays::{self, Replay};
use crate::states::tally::{Event, Tally};
use crate::states::{self, Numbers};
use std::io;

pub enum Craft {
    State(Numbers),
    Replay(Replay),
    Display(Numbers),
}

/// The fixed lists of all three.
pub fn fixed() -> impl Iterator<Item = Craft> {
    let states = states::fixed().into_iter().map(Craft::State);
    let replays = replays::fixed().into_iter().map(Craft::Replay);
    states.chain(replays).chain(displays::fixed().into_iter().map(Craft::Display))
}

pub fn compare_states(seed: u64, count: u64, program: &[&str]) -> io::Result<()> {
    let fixed = states::fixed().into_iter().map(Craft::State);
    let random = states::random(seed, count).map(Craft::State);
    compare("states", seed, fixed, random, states::events(), program)
}

pub fn compare_replays(seed: u64, count: u64, program: &[&str]) -> io::Result<()> {
    let fixed = replays::fixed().into_iter().map(Craft::Replay);
    let random = replays::random(seed, count).map(Craft::Replay);
    compare("replays", seed, fixed, random, replays::events(), program)
}

pub fn compare_displays(seed: u64, count: u64, program: &[&str]) -> io::Result<()> {
    let fixed = displays::fixed().into_iter().map(Craft::Display);
    let random = displays::random(seed, count).map(Craft::Display);
    compare("displays", seed, fixed, random, displays::events(), program)
}

fn compare(
    name: &'static str,
    seed: u64,
    fixed: impl ExactSizeIterator<Item = Craft> + Send + 'static,
    random: impl Iterator<Item = Craft> + Send + 'static,
    events: Vec<Event>,
    program: &[&str],
) -> io::Result<()> {
    let mut tally = Tally::new(events);
    let mut places = Places::default();
    let mut left = fixed.len();
    let asked = ask(program, fixed.chain(random).map(Asked::new), |craft| {
        if left == 0 {
            tally.go_random();
        }
        left = left.saturating_sub(1);
        if let Err(refusal) = craft.what.count(&mut tally) {
            tally.add(Event::refused(refusal));
            if let Refusal::Outside { place } = refusal {
                places.add(name, place as u64);
            }
        }
    })?;
    print!("{tally}{places}");
    places.check(name, 1);
    println!("compare: {asked} {name} equal, seed {seed}");
    Ok(())
}

impl Craft {
    fn count(&self, tally: &mut Tally) -> Result<(), Refusal> {
        match self {
            Craft::State(numbers) => states::count(tally, numbers),
            Craft::Replay(replay) => replays::count(tally, replay),
            Craft::Display(numbers) => displays::count(tally, numbers),
        }
    }
}

impl Lined for Craft {
    fn line(&self) -> Vec<u8> {
        match self {
            Craft::State(numbers) => states::write(numbers),
            Craft::Replay(replay) => replays::write(replay),
            Craft::Display(numbers) => displays::write(numbers),
        }
    }

    fn answer(&self) -> String {
        match self {
            Craft::State(numbers) => states::answer(numbers),
            Craft::Replay(replay) => replays::answer(replay),
            Craft::Display(numbers) => displays::answer(numbers),
        }
    }

    fn part(&self, place: usize) -> String {
        match self {
            Craft::State(_) => states::part(place),
            Craft::Replay(_) => replays::PARTS[place].to_string(),
            Craft::Display(_) => "length or refusal, and room".to_string(),
        }
    }
}
