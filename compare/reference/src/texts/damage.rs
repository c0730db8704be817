//! Damages to an input of the replay program: what a careless or a hostile hand does to it. Some are harmless.

use crate::random::Random;
use std::ops::Range;

type Damage = (&'static str, fn(&mut Random, &mut Vec<u8>));

const DAMAGES: [Damage; 18] = [
    ("cut", cut),
    ("a byte changed", change),
    ("a byte removed", remove),
    ("a byte more", insert),
    ("a zero byte", insert_zero),
    ("a space more", insert_space),
    ("a space at the line's end", end_in_space),
    ("a tab", put_tab),
    ("a carriage return", end_in_return),
    ("a sign", insert_sign),
    ("11 digits or more", insert_digits),
    ("2^32 or more", put_huge),
    ("leading zeros", insert_zeros),
    ("a value at an edge", put_edge),
    ("14 numbers", remove_field),
    ("16 numbers", insert_field),
    ("no newline", remove_newlines),
    ("a word unknown", insert_word),
];
const BYTES: &[u8] = b"\0\t\n\x0b\r +-.019AZaz\x7f\x80\xff";
/// At the limits of some field, and beside them.
pub const EDGES: [u32; 16] = [
    0,
    1,
    2,
    97,
    98,
    127,
    128,
    255,
    256,
    200_070,
    200_071,
    1_000_000,
    1_000_001,
    0x7FFF_FFFF,
    0x8000_0000,
    0xFFFF_FFFF,
];
const WORDS: [&str; 8] = [
    "Nope",
    "basictouch",
    "BasicTouc",
    "BasicTouchh",
    "Basic",
    "BasicTouchStandardTouch",
    "7",
    "Ob\0serve",
];

/// Damages a text, and says how.
pub fn damage(random: &mut Random, text: &mut Vec<u8>) -> &'static str {
    let (name, apply) = random.any(&DAMAGES);
    apply(random, text);
    name
}

fn line_end(text: &[u8]) -> usize {
    text.iter().position(|byte| *byte == b'\n').expect("a first line")
}

/// Where one of the line's numbers stands.
fn field(random: &mut Random, text: &[u8]) -> Range<usize> {
    let end = line_end(text);
    let spaces = (0..end).filter(|place| text[*place] == b' ');
    let starts: Vec<usize> = std::iter::once(0).chain(spaces.map(|space| space + 1)).collect();
    let start = random.any(&starts);
    let length = text[start..end].iter().position(|byte| *byte == b' ');
    start..length.map_or(end, |length| start + length)
}

fn put(text: &mut Vec<u8>, range: Range<usize>, bytes: &str) {
    text.splice(range, bytes.bytes());
}

fn any_byte(random: &mut Random) -> u8 {
    if random.one_in(2) {
        random.any(BYTES)
    } else {
        random.bits() as u8
    }
}

fn cut(random: &mut Random, text: &mut Vec<u8>) {
    text.truncate(random.place(text.len()));
}

fn change(random: &mut Random, text: &mut Vec<u8>) {
    let place = random.place(text.len());
    text[place] = any_byte(random);
}

fn remove(random: &mut Random, text: &mut Vec<u8>) {
    text.remove(random.place(text.len()));
}

fn insert(random: &mut Random, text: &mut Vec<u8>) {
    text.insert(random.place(text.len() + 1), any_byte(random));
}

fn insert_zero(random: &mut Random, text: &mut Vec<u8>) {
    text.insert(random.place(text.len() + 1), 0);
}

/// Before the line or doubled within it.
fn insert_space(random: &mut Random, text: &mut Vec<u8>) {
    text.insert(field(random, text).start, b' ');
}

fn end_in_space(_: &mut Random, text: &mut Vec<u8>) {
    text.insert(line_end(text), b' ');
}

fn put_tab(random: &mut Random, text: &mut Vec<u8>) {
    let end = field(random, text).end;
    put(text, end..end + 1, "\t");
}

fn end_in_return(_: &mut Random, text: &mut Vec<u8>) {
    text.insert(line_end(text), b'\r');
}

fn insert_sign(random: &mut Random, text: &mut Vec<u8>) {
    let sign = random.any(b"+-");
    text.insert(field(random, text).start, sign);
}

fn insert_digits(random: &mut Random, text: &mut Vec<u8>) {
    let start = field(random, text).start;
    put(text, start..start, random.any(&["0000000000", "1000000000", "99999999999999999999"]));
}

fn put_huge(random: &mut Random, text: &mut Vec<u8>) {
    let range = field(random, text);
    let more = u64::from(random.bits()) + u64::from(random.below(1_400_000_000));
    put(text, range, &((1 << 32) + random.any(&[0, 1, more, 5_705_032_703])).to_string());
}

/// At most ten digits then are read as before.
fn insert_zeros(random: &mut Random, text: &mut Vec<u8>) {
    let start = field(random, text).start;
    let zeros = "0".repeat(random.between(1, 9) as usize);
    put(text, start..start, &zeros);
}

fn put_edge(random: &mut Random, text: &mut Vec<u8>) {
    let range = field(random, text);
    put(text, range, &random.any(&EDGES).to_string());
}

fn remove_field(random: &mut Random, text: &mut Vec<u8>) {
    let range = field(random, text);
    put(text, range.start..range.end + 1, "");
}

fn insert_field(random: &mut Random, text: &mut Vec<u8>) {
    let start = field(random, text).start;
    put(text, start..start, "1 ");
}

/// The first, or all of them.
fn remove_newlines(random: &mut Random, text: &mut Vec<u8>) {
    if random.one_in(2) {
        text.remove(line_end(text));
    } else {
        text.retain(|byte| *byte != b'\n');
    }
}

/// Somewhere behind the line, between gaps or within a word.
fn insert_word(random: &mut Random, text: &mut Vec<u8>) {
    let place = line_end(text) + 1 + random.place(text.len() - line_end(text));
    put(text, place..place, &format!(" {}\n", random.any(&WORDS)));
}
