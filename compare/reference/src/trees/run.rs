//! The calls over trees of a host of the archive: each answer, record and byte of each room is held to what it must be.

use super::answer::Answer;
use super::generate::Case;
use super::record::{Record, WIDTH};
use super::ways::Ways;
use super::{fixed, generate};
use crate::ask::{ask, Question};
use crate::counts::Counts;
use std::io::{self, BufRead};

/// The bytes of the three numbers before the records.
const HEAD: usize = 24;

/// The fixed list and the calls of `count` random trees.
pub fn compare(seed: u64, count: u64, host: &[&str]) -> io::Result<()> {
    let mut counts = Counts::default();
    let mut ways = Ways::default();
    let mut records = 0;
    let asked = ask(host, fixed::cases().chain(generate::cases(seed, count)), |case| {
        count_case(&mut counts, case);
        ways.add(case);
        records += case.answer.records.len();
    })?;
    print!("{counts}{ways}");
    counts.check_places(1);
    ways.check();
    println!("compare: {asked} calls equal, {records} records after them, seed {seed}");
    Ok(())
}

fn count_case(counts: &mut Counts, case: &Case) {
    counts.answered(case.call.function.name(), case.answer.number, case.answer.value);
    if let Some(met) = &case.met {
        counts.met(met);
    }
}

impl Question for Case {
    fn request(&self) -> Vec<u8> {
        self.call.request()
    }

    fn difference(&self, answers: &mut impl BufRead) -> io::Result<Option<String>> {
        let said = read(answers, &self.answer)?;
        Ok((said != self.answer).then(|| shown(self, &said)))
    }
}

/// An answer with as many records and as much room as this one.
fn read(answers: &mut impl BufRead, wanted: &Answer) -> io::Result<Answer> {
    let records = wanted.records.len() * WIDTH;
    let mut bytes = vec![0; HEAD + records + wanted.room.len()];
    answers.read_exact(&mut bytes)?;
    let number = |at: usize| u64::from_le_bytes(bytes[at..at + 8].try_into().expect("eight bytes"));
    Ok(Answer {
        number: number(0),
        value: number(8),
        node: number(16),
        records: bytes[HEAD..HEAD + records].chunks(WIDTH).map(Record::read).collect(),
        room: bytes[HEAD + records..].to_vec(),
    })
}

fn shown(case: &Case, said: &Answer) -> String {
    let wanted = &case.answer;
    let mut others = wanted.records.iter().zip(&said.records).enumerate();
    let other = others.find(|(_, (wanted, said))| wanted != said);
    format!(
        "{:?}\nmust answer {} with {} and node {}, but it answers {} with {} and node {}\nfirst other record, as it must be \
         and as it is: {other:?}\nthe room must hold \"{}\"\nbut holds \"{}\"",
        case.call,
        wanted.number,
        wanted.value,
        wanted.node,
        said.number,
        said.value,
        said.node,
        wanted.room.escape_ascii(),
        said.room.escape_ascii(),
    )
}
