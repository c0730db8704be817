//! The line of a case; its layout and the kinds stand in docs/COMPARISON.md.

const WIDTH: usize = 256;
pub const LAST_KIND: u8 = 21;
pub const TEXT_ROOM: usize = 36;
pub const NUMBERS: usize = 19;

pub struct Case {
    pub kind: u8,
    pub numbers: [u32; NUMBERS],
    text: [u8; TEXT_ROOM],
}

impl Case {
    /// The numbers not given are 0.
    pub fn new(kind: u8, given: &[u32]) -> Case {
        let mut numbers = [0; NUMBERS];
        numbers[..given.len()].copy_from_slice(given);
        Case { kind, numbers, text: [b' '; TEXT_ROOM] }
    }

    /// A case whose first number is the length of its text.
    pub fn with_text(kind: u8, text: &[u8]) -> Case {
        let mut case = Case::new(kind, &[text.len() as u32]);
        case.text[..text.len()].copy_from_slice(text);
        case
    }

    pub fn with_list(kind: u8, list: &[u32]) -> Case {
        let text: Vec<u8> = list.iter().map(|number| mark(*number) as u8).collect();
        Case::with_text(kind, &text)
    }

    pub fn text(&self) -> &[u8] {
        &self.text[..self.numbers[0] as usize]
    }

    pub fn list(&self) -> impl Iterator<Item = u32> + '_ {
        self.text().iter().map(|byte| u32::from(byte - b'@'))
    }

    pub fn line(&self) -> Vec<u8> {
        let numbers: String = self.numbers.iter().map(|number| format!(" {number:010}")).collect();
        let mut line = format!("{:02}{numbers} ", self.kind).into_bytes();
        line.extend(self.text);
        line.resize(WIDTH - 1, b' ');
        line.push(b'\n');
        line
    }
}

/// A number below 64 as one byte that can be read in a line.
pub fn mark(number: u32) -> char {
    char::from(b'@' + number as u8)
}
