//! What our programs `cases` and `states` are asked by a line of a fixed width, and answer by a line.

use crate::ask::Question;
use std::io::{self, BufRead};

/// What joins the parts of an answer.
const JOINT: &str = "; ";

pub trait Lined: Send + 'static {
    fn line(&self) -> Vec<u8>;

    /// By the Rust, or the refusal; one line without its end.
    fn answer(&self) -> String;

    /// What a part of the answer says, by its place.
    fn part(&self, place: usize) -> String;
}

pub struct Asked<T> {
    pub what: T,
    answer: String,
}

impl<T: Lined> Asked<T> {
    pub fn new(what: T) -> Asked<T> {
        Asked { answer: what.answer(), what }
    }

    pub fn parts(&self) -> impl Iterator<Item = &str> {
        self.answer.split(JOINT)
    }

    /// The first part that differs, by its name.
    fn shown(&self, said: &str) -> String {
        let parts = said.split(JOINT).map(Some).chain(std::iter::repeat(None));
        let mut pairs = self.parts().zip(parts).enumerate();
        let line = self.what.line();
        let line = line.trim_ascii_end().escape_ascii();
        match pairs.find(|(_, (wanted, said))| Some(*wanted) != *said) {
            Some((place, (wanted, part))) => {
                let (name, part) = (self.what.part(place), part.unwrap_or("nothing"));
                format!("{line}\n{name}\nRust: {wanted}\nours: {part}")
            }
            None => format!("{line}\nRust: {}\nours: {said}", self.answer),
        }
    }
}

impl<T: Lined> Question for Asked<T> {
    fn request(&self) -> Vec<u8> {
        self.what.line()
    }

    fn difference(&self, answers: &mut impl BufRead) -> io::Result<Option<String>> {
        let mut said = Vec::new();
        answers.read_until(b'\n', &mut said)?;
        let is_same = said.strip_suffix(b"\n") == Some(self.answer.as_bytes());
        Ok((!is_same).then(|| self.shown(String::from_utf8_lossy(&said).trim_end_matches('\n'))))
    }
}

/// The number and the value of the refusal that a part of an answer is; 0 where there is none.
pub fn refused(part: &str) -> (u64, u64) {
    let Some(refused) = part.strip_prefix("refused ") else { return (0, 0) };
    let mut words = refused.split(' ').map(|word| word.parse().ok());
    let number = words.next().flatten().expect("a refusal has a number");
    (number, words.next().flatten().unwrap_or(0))
}
