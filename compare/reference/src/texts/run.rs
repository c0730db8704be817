//! The calls of a host of the archive: each answer and each byte of each room is held to what it must be.

use super::answer::Answer;
use super::call::{room, Call};
use super::generate::Case;
use super::{fixed, generate, timing};
use crate::ask::{ask, Process, Question};
use crate::counts::Counts;
use std::io::{self, BufRead, Read, Write};

/// The fixed list and the calls of `count` random replays.
pub fn compare(seed: u64, count: u64, host: &[&str]) -> io::Result<()> {
    let mut counts = Counts::default();
    let mut bytes = 0;
    let asked = ask(host, fixed::cases().chain(generate::cases(seed, count)), |case| {
        count_case(&mut counts, case);
        bytes += case.answer.room.len();
    })?;
    print!("{counts}");
    counts.check_places(1);
    println!("compare: {asked} calls equal, {bytes} bytes of room, seed {seed}");
    timing::print(host)
}

fn count_case(counts: &mut Counts, case: &Case) {
    counts.answered(case.call.function.name(), case.answer.number, case.answer.value);
    if let Some(met) = &case.met {
        counts.met(met);
    }
}

impl Question for Case {
    fn request(&self) -> Vec<u8> {
        self.call.request(&room(self.answer.room.len()))
    }

    fn difference(&self, answers: &mut impl BufRead) -> io::Result<Option<String>> {
        let said = read(answers, self.answer.room.len())?;
        Ok((said != self.answer).then(|| shown(self, &said)))
    }
}

fn read(answers: &mut impl Read, room: usize) -> io::Result<Answer> {
    let mut bytes = vec![0; 16 + room];
    answers.read_exact(&mut bytes)?;
    let number = |at: usize| u64::from_le_bytes(bytes[at..at + 8].try_into().expect("eight bytes"));
    Ok(Answer { number: number(0), value: number(8), room: bytes[16..].to_vec() })
}

fn shown(case: &Case, said: &Answer) -> String {
    let Call { function, context, mode, input } = &case.call;
    let wanted = &case.answer;
    let place = wanted.room.iter().zip(&said.room).position(|(wanted, said)| wanted != said);
    format!(
        "{} in {mode} mode, {context:?}, room of {} bytes:\n\"{}\"\nmust answer {} with {}, but it answers {} with {}; \
         first other byte of the room: {place:?}\nmust hold \"{}\"\nbut holds \"{}\"",
        function.name(),
        wanted.room.len(),
        input.escape_ascii(),
        wanted.number,
        wanted.value,
        said.number,
        said.value,
        wanted.room.escape_ascii(),
        said.room.escape_ascii(),
    )
}

impl Call {
    /// One call, with no other under way.
    pub fn ask(&self, host: &mut Process, bytes: usize) -> io::Result<Answer> {
        host.stdin.write_all(&self.request(&room(bytes)))?;
        read(&mut host.stdout, bytes)
    }
}
