//! Bad calls of the archive's functions on lists and texts.

use super::{bytes, inputs, numbers, possible};
use crate::ask::ask;
use crate::counts::Counts;
use crate::outside;
use crate::random::Random;
use crate::replays::random_one;
use crate::texts::{damage_text, in_room, list_of, text_of, words_of, Call, Case, Function};
use std::io;

const FUNCTIONS: &[Function] = &[
    Function::Replay,
    Function::ReplayText,
    Function::Print,
    Function::ReadList,
    Function::WriteList,
    Function::MacroTime,
];
/// One in so many is about as long as an input may be.
const LONG_ONE_IN: u32 = 64;

pub fn compare(seed: u64, count: u64, host: &[&str]) -> io::Result<()> {
    let calls = inputs(seed, count, FUNCTIONS, |random, function| {
        let call = call(random, function);
        in_room(random, call).0
    });
    let mut counts = Counts::default();
    let asked = ask(host, calls, |case: &Case| {
        counts.answered(case.call.function.name(), case.answer.number, case.answer.value)
    })?;
    possible::report(&counts, possible::OF_TEXTS, asked, seed);
    Ok(())
}

fn call(random: &mut Random, function: Function) -> Call {
    match function {
        Function::Replay => replay(random),
        Function::ReplayText | Function::Print => Call::new(function, &text(random)),
        Function::ReadList => Call::new(function, &words(random)),
        Function::WriteList | Function::MacroTime => Call::new(function, &list(random)),
    }
}

fn replay(random: &mut Random) -> Call {
    let mut replay = random_one(random);
    numbers::spoil(random, &mut replay.context, &outside::in_words());
    Call::replay(replay.context, replay.mode, &list(random))
}

/// One in four has a whole line, with numbers outside their limits.
fn text(random: &mut Random) -> Vec<u8> {
    let replay = random_one(random);
    let words = words_of(random, &list_of(&replay));
    let mut numbers = replay.context.map(u64::from);
    if random.one_in(4) {
        outside::push(random, &mut numbers, &outside::in_line());
        return text_of(&numbers, &words);
    }
    damaged(random, text_of(&numbers, &words))
}

fn words(random: &mut Random) -> Vec<u8> {
    let list = list_of(&random_one(random));
    let words = words_of(random, &list).into_bytes();
    damaged(random, words)
}

/// Or anything in its place.
fn damaged(random: &mut Random, text: Vec<u8>) -> Vec<u8> {
    let mut text = match random.below(16) {
        0 => bytes::any(random),
        1 => bytes::typed(random),
        _ => text,
    };
    for _ in 0..random.below(4) {
        // The damages to a line need one.
        if text.contains(&b'\n') && random.one_in(2) {
            damage_text(random, &mut text);
        } else {
            bytes::damage(random, &mut text);
        }
    }
    sometimes_long(random, text)
}

fn list(random: &mut Random) -> Vec<u8> {
    let mut list = list_of(&random_one(random));
    match random.below(4) {
        0 => list = bytes::any(random),
        1 | 2 => bytes::damage(random, &mut list),
        _ => {}
    }
    sometimes_long(random, list)
}

fn sometimes_long(random: &mut Random, mut input: Vec<u8>) -> Vec<u8> {
    if random.one_in(LONG_ONE_IN) {
        bytes::lengthen(random, &mut input);
    }
    input
}
