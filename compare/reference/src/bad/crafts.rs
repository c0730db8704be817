//! Bad states, replays and Display lines.

use super::{inputs, numbers, possible};
use crate::ask::ask;
use crate::counts::Counts;
use crate::crafts::Craft;
use crate::displays;
use crate::lined::{refused, Asked};
use crate::outside;
use crate::random::Random;
use crate::replays::{self, Replay, LIST_MOST, UNKNOWN_MOST};
use crate::states::fields::{LAST, STEP};
use crate::states::{self, Numbers};
use std::io;

#[derive(Clone, Copy)]
enum Kind {
    State,
    Replay,
    Display,
}

const KINDS: &[Kind] = &[Kind::State, Kind::Replay, Kind::Display];
/// An illegal step, refusal 4, is a dash in a line.
const ILLEGAL: u64 = 4;

pub fn compare(seed: u64, count: u64, program: &[&str]) -> io::Result<()> {
    let crafts = inputs(seed, count, KINDS, craft).map(Asked::new);
    let mut counts = Counts::default();
    let asked = ask(program, crafts, |craft| count_craft(&mut counts, craft))?;
    possible::report(&counts, possible::OF_CRAFTS, asked, seed);
    Ok(())
}

fn craft(random: &mut Random, kind: Kind) -> Craft {
    match kind {
        Kind::State => Craft::State(state(random)),
        Kind::Replay => Craft::Replay(replay(random)),
        Kind::Display => {
            let room = random.between(0, displays::ROOM_MOST);
            Craft::Display(displays::with_room(&state(random), room))
        }
    }
}

/// One in eight is whole, so that actions can be what is wrong.
fn state(random: &mut Random) -> Numbers {
    let mut numbers = states::random_one(random);
    let (context, state) = numbers[..=LAST].split_at_mut(STEP);
    match random.below(8) {
        0 => numbers::replace(random, &mut numbers[..=LAST]),
        1 => numbers::replace(random, context),
        2 => numbers::replace(random, state),
        3 => numbers::damage(random, context),
        4 => numbers::damage(random, state),
        5 => outside::push(random, context, &outside::in_record()),
        6 => numbers::damage(random, &mut numbers[..=LAST]),
        _ => {}
    }
    numbers
}

fn replay(random: &mut Random) -> Replay {
    let mut replay = replays::random_one(random);
    numbers::spoil(random, &mut replay.context, &outside::in_record());
    if random.one_in(2) {
        replay.list = list(random);
    }
    replay
}

/// Of any numbers that a line can say.
fn list(random: &mut Random) -> Vec<u32> {
    (0..random.place(LIST_MOST + 1)).map(|_| random.between(0, UNKNOWN_MOST)).collect()
}

fn count_craft(counts: &mut Counts, craft: &Asked<Craft>) {
    match &craft.what {
        Craft::State(_) => {
            let parts = craft.parts().enumerate();
            parts.for_each(|(place, part)| count_part(counts, entry(place), part));
        }
        Craft::Replay(_) => count_part(counts, "replay", first_part(craft)),
        Craft::Display(_) => count_part(counts, "display", first_part(craft)),
    }
}

fn first_part(craft: &Asked<Craft>) -> &str {
    craft.parts().next().expect("a part")
}

fn count_part(counts: &mut Counts, entry: &'static str, part: &str) {
    let (number, value) = if part == "-" { (ILLEGAL, 0) } else { refused(part) };
    counts.answered(entry, number, value);
}

/// The entry that a part of a state's answer comes from.
fn entry(part: usize) -> &'static str {
    match part {
        0 => "CraftState::new",
        1 | 2 => "moves",
        3 | 4 => "result",
        5 => "score",
        _ => "step",
    }
}
