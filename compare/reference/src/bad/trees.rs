//! Bad calls of the archive's functions on trees.

use super::{inputs, numbers, possible};
use crate::ask::ask;
use crate::counts::Counts;
use crate::random::Random;
use crate::trees::{
    any_float, any_record, is_sound, made_up, no_counts, upward, Call, Case, Function, Record,
    DAMAGES, FUNCTIONS,
};
use std::io;

const RECORDS_MOST: u32 = 20;

pub fn compare(seed: u64, count: u64, host: &[&str]) -> io::Result<()> {
    let calls =
        inputs(seed, count, &FUNCTIONS, |random, function| Case::new(call(random, function)));
    let mut counts = Counts::default();
    let asked = ask(host, calls, |case| {
        counts.answered(case.call.function.name(), case.answer.number, case.answer.value)
    })?;
    possible::report(&counts, possible::OF_TREES, asked, seed);
    Ok(())
}

fn call(random: &mut Random, function: Function) -> Call {
    let (records, count) = tree(random);
    let node = number(random, count);
    Call {
        node,
        target: target(random, &records, count, node),
        action: numbers::action(random),
        score: any_float(random),
        unused: numbers::any(random),
        room: random.place(records.len() + 2),
        ..Call::new(function, &records, count)
    }
}

/// Anything, or a sound tree, of which half are damaged; and now and then a count that no tree has.
fn tree(random: &mut Random) -> (Vec<Record>, u64) {
    let length = random.between(0, RECORDS_MOST) as usize;
    let mut records: Vec<Record> = (0..length).map(|_| any_record(random)).collect();
    if length == 0 || random.one_in(8) {
        let count = random.place(length + 2) as u64;
        return (records, count);
    }
    let count = made_up(random, &mut records);
    if random.one_in(2) {
        damage(random, &mut records);
    }
    let count = if random.one_in(8) { random.any(&no_counts(length)) } else { count };
    (records, count)
}

/// One to three records have a field wrong in a known way, or a bit changed.
fn damage(random: &mut Random, records: &mut [Record]) {
    for _ in 0..random.between(1, 3) {
        let number = random.place(records.len());
        let record = &mut records[number];
        if random.one_in(2) {
            let (_, apply) = random.any(&DAMAGES);
            apply(number as u64, record);
        } else {
            let mut bytes = record.bytes();
            bytes[random.place(bytes.len())] ^= 1 << random.below(8);
            *record = Record::read(&bytes);
        }
    }
}

/// A node below the count, or around it, or anything.
fn number(random: &mut Random, count: u64) -> u64 {
    let bits = u64::from(random.bits());
    match random.below(8) {
        0 => random.any(&[count, count.wrapping_add(1), 1 << 32, u64::MAX, bits, bits << 32]),
        _ => bits % count.clamp(1, 1 << 32),
    }
}

/// Often one that is above the node.
fn target(random: &mut Random, records: &[Record], count: u64, node: u64) -> u64 {
    if is_sound(records, count) && node < count && !random.one_in(4) {
        return random.any(&upward(records, node));
    }
    number(random, count)
}
