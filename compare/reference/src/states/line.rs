//! The line of a state, and what it shares with those of a replay and of a Display; their layouts stand in docs/COMPARISON.md.

const WIDTH: usize = 512;
pub const NUMBERS: usize = 33;
const KIND: &str = "22";

pub type Numbers = [u32; NUMBERS];

pub fn write(numbers: &Numbers) -> Vec<u8> {
    line(KIND, numbers, b"")
}

/// The kind, the numbers and, after a space, the text.
pub fn line(kind: &str, numbers: &[u32], text: &[u8]) -> Vec<u8> {
    let numbers: String = numbers.iter().map(|number| format!(" {number:010}")).collect();
    let mut line = format!("{kind}{numbers} ").into_bytes();
    line.extend(text);
    line.resize(WIDTH - 1, b' ');
    line.push(b'\n');
    line
}
