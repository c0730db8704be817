//! Random calls: of each random replay its list as text and back, its time, its text, whole or damaged, and its numbers.

use super::answer::{answer, told, Answer, Told};
use super::call::{Call, Function};
use super::damage::damage;
use super::lists::ends;
use crate::random::Random;
use crate::refusal::Refusal;
use crate::replays::{self, Replay};
use crafty::Action;

/// A call, what it must answer in a room, and what is counted of it.
pub struct Case {
    pub call: Call,
    pub answer: Answer,
    pub met: Option<String>,
}

/// So many numbers of room, for a call that needs some or is refused.
const REFUSED_NEEDS: usize = 64;
const ROOM_MORE: u32 = 300;
/// Another run of numbers than that which decides the replay.
const OF_TEXT: u64 = 1 << 31;

impl Case {
    pub fn new(call: Call, told: &Result<Told, Refusal>, room: usize) -> Case {
        Case { answer: answer(&call, told, room), call, met: None }
    }
}

/// The calls of the replays by their number in a run.
pub fn cases(seed: u64, count: u64) -> impl Iterator<Item = Case> {
    let replays = (0..count).zip(replays::random(seed, count));
    replays.flat_map(move |(number, replay)| {
        of_replay(&mut Random::numbered(seed, OF_TEXT + number), &replay)
    })
}

pub fn list_of(replay: &Replay) -> Vec<u8> {
    replay.list.iter().map(|number| *number as u8).collect()
}

fn of_replay(random: &mut Random, replay: &Replay) -> Vec<Case> {
    let list = list_of(replay);
    let words = words_of(random, &list);
    let mut text = text_of(&replay.context, &words);
    let damage = if random.one_in(3) { "whole" } else { damage(random, &mut text) };
    let calls = [
        Call::replay(replay.context, replay.mode, &list),
        Call::new(Function::ReadList, words.as_bytes()),
        Call::new(Function::WriteList, &list),
        Call::new(Function::MacroTime, &list),
        Call::new(Function::ReplayText, &text),
        Call::new(Function::Print, &text),
    ];
    calls.into_iter().map(|call| noted(in_room(random, call), damage)).collect()
}

/// A call in a random room, and what it is told with all the room that it needs.
pub fn in_room(random: &mut Random, call: Call) -> (Case, Result<Told, Refusal>) {
    let told = told(&call);
    let needed = told.as_ref().map_or(REFUSED_NEEDS, |told| told.value);
    let room = room(random, call.function, needed);
    (Case::new(call, &told, room), told)
}

/// With what became of a text, and with the ends of a list that has a time.
fn noted((case, told): (Case, Result<Told, Refusal>), damage: &str) -> Case {
    let met = match case.call.function {
        Function::ReplayText => Some(format!("text, {damage}: {}", ended(&told))),
        Function::MacroTime if told.is_ok() => Some(format!("time, {}", ends(&case.call.input))),
        _ => None,
    };
    Case { met, ..case }
}

/// The result on the last line of a text, or its refusal.
fn ended(told: &Result<Told, Refusal>) -> String {
    match told {
        Err(refusal) => format!("refused {}", refusal.number()),
        Ok(told) => {
            let text = String::from_utf8_lossy(&told.bytes);
            let words = text.lines().last().and_then(|line| line.split(' ').next());
            words.expect("a line of the result").to_string()
        }
    }
}

/// Too short, just enough, or longer.
fn room(random: &mut Random, function: Function, needed: usize) -> usize {
    match random.below(8) {
        _ if function == Function::MacroTime => 0,
        0 => 0,
        1 => needed.saturating_sub(1),
        2 => random.place(needed + 1),
        3 | 4 => needed,
        5 => needed + 1,
        _ => needed + random.between(2, ROOM_MORE) as usize,
    }
}

/// The first line of the replay program's input.
pub fn line(context: &[impl ToString]) -> String {
    let numbers: Vec<String> = context.iter().map(ToString::to_string).collect();
    numbers.join(" ") + "\n"
}

/// The replay program's input.
pub fn text_of(context: &[impl ToString], words: &str) -> Vec<u8> {
    (line(context) + words).into_bytes()
}

/// The names of a list, parted by gaps of one kind or of all; an unknown number is an unknown word.
pub fn words_of(random: &mut Random, list: &[u8]) -> String {
    let gaps: &[&str] =
        random.any(&[&["\n"][..], &[" "][..], &["\n", " ", "\t", "\r\n", "  ", " \t\n\r"][..]]);
    let mut text = String::new();
    if random.one_in(8) {
        text += random.any(gaps);
    }
    for number in list {
        text += Action::ACTIONS.get(usize::from(*number)).map_or("Nope", Action::name);
        text += random.any(gaps);
    }
    if random.one_in(2) {
        text.truncate(text.trim_end().len());
    }
    text
}
