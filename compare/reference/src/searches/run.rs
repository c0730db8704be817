//! The searches of a host of the archive: each answer, record and byte of each room is held to what it must be.

use super::answer::{Answer, Found};
use super::call::Call;
use super::generate::{Case, TWO_WRONGS};
use super::{early, fixed, generate, later};
use crate::ask::{ask, Question};
use crate::counts::Counts;
use crate::fail;
use crate::states::fields::StateNumbers;
use crate::states::result::RESULTS;
use crate::trees::{Record, WIDTH};
use std::io::{self, BufRead};

const NAME: &str = "crafty_search";
/// The bytes of a `crafty_found`, and where its state begins.
const FOUND: usize = 120;
const STATE: usize = 48;
/// In so many random searches there are so many iterations, and whatever else is counted is met so often, at least. Fewer
/// may miss some.
const MANY: u64 = 20_000;
const LEAST_ITERATIONS: u64 = 10_000_000;
const LEAST: u64 = 1_000;

const ITERATIONS: &str = "iterations";
const DEAD_ENDS: &str = "iterations that are dead ends";
const STORED: &str = "iterations that store a whole path";
const TIES: &str = "equal greatest ucb1 scores on the way down";

/// The fixed list and the calls of `count` random searches.
pub fn compare(seed: u64, count: u64, host: &[&str]) -> io::Result<()> {
    let mut counts = nothing_met();
    let mut records = 0;
    let asked = ask(host, fixed::cases().chain(generate::cases(seed, count)), |case| {
        count_case(&mut counts, case);
        records += case.call.records;
    })?;
    print!("{counts}");
    counts.check_places(1);
    check(&counts, count);
    println!(
        "compare: {asked} calls equal, of {count} random searches, {records} records after them, seed {seed}"
    );
    Ok(())
}

/// Every name, so that what is never met is told too.
fn nothing_met() -> Counts {
    let mut counts = Counts::default();
    let wrongs =
        early::WRONGS.map(|wrong| wrong.0).into_iter().chain(later::WRONGS.map(|wrong| wrong.0));
    let names = wrongs.map(refused).chain(RESULTS[..4].iter().map(|result| rolled_out(result)));
    let others = [TWO_WRONGS, ITERATIONS, DEAD_ENDS, STORED, TIES].map(str::to_string);
    names.chain(others).for_each(|name| counts.met_times(&name, 0));
    counts
}

fn refused(wrong: &str) -> String {
    format!("refused, {wrong}")
}

fn rolled_out(result: &str) -> String {
    format!("rollouts, {result}")
}

fn count_case(counts: &mut Counts, case: &Case) {
    let Found { number, value, .. } = case.answer.found;
    counts.answered(NAME, u64::from(number), value);
    match case.wrong {
        Some(TWO_WRONGS) => counts.met(TWO_WRONGS),
        Some(wrong) if number > 0 => counts.met(&refused(wrong)),
        _ => {}
    }
    let tally = &case.tally;
    counts.met_times(ITERATIONS, tally.iterations);
    counts.met_times(DEAD_ENDS, tally.dead_ends);
    counts.met_times(STORED, tally.stored);
    counts.met_times(TIES, tally.ties);
    for (result, count) in &tally.rolled_out {
        counts.met_times(&rolled_out(result), *count);
    }
}

fn check(counts: &Counts, searches: u64) {
    let least = |what: &str| if what == ITERATIONS { LEAST_ITERATIONS } else { LEAST };
    let few = counts.others().find(|(what, count)| *count < searches / MANY * least(what));
    if let Some((what, count)) = few {
        fail(format!("{what}: met only {count} times"));
    }
}

impl Question for Case {
    fn request(&self) -> Vec<u8> {
        self.call.request()
    }

    fn difference(&self, answers: &mut impl BufRead) -> io::Result<Option<String>> {
        let said = read(answers, &self.call)?;
        let wanted = &self.answer;
        let other =
            (0..).zip(&said.records).find(|(number, record)| **record != self.record(*number));
        let is_same = said.found == wanted.found && other.is_none() && said.room == wanted.room;
        Ok((!is_same).then(|| shown(self, &said, other)))
    }
}

impl Case {
    /// As it must be after the call.
    fn record(&self, number: usize) -> Record {
        let used = self.answer.records.get(number).copied();
        used.unwrap_or_else(|| Call::lent_record(number))
    }
}

fn read(answers: &mut impl BufRead, call: &Call) -> io::Result<Answer> {
    let records = call.records * WIDTH;
    let mut bytes = vec![0; FOUND + records + call.room];
    answers.read_exact(&mut bytes)?;
    Ok(Answer {
        found: found(&bytes[..FOUND]),
        records: bytes[FOUND..FOUND + records].chunks(WIDTH).map(Record::read).collect(),
        room: bytes[FOUND + records..].to_vec(),
    })
}

fn found(bytes: &[u8]) -> Found {
    let word = |at: usize| u32::from_le_bytes(bytes[at..at + 4].try_into().expect("four bytes"));
    let number = |at: usize| u64::from_le_bytes(bytes[at..at + 8].try_into().expect("eight bytes"));
    let mut state = StateNumbers::default();
    state.iter_mut().enumerate().for_each(|(place, field)| *field = word(STATE + 4 * place));
    Found {
        number: word(0),
        iterations: word(4),
        value: number(8),
        records: number(16),
        draws: number(24),
        path: number(32),
        node: number(40),
        state,
    }
}

fn shown(case: &Case, said: &Answer, other: Option<(usize, &Record)>) -> String {
    let Call { context, options, logarithms, draws, records, room } = &case.call;
    let other = other.map(|(number, record)| (number, case.record(number), record));
    format!(
        "a search of {context:?}, {options:?}, with {} logarithms, {} draws, {records} records and a room of {room}, wrong: {:?}\n\
         must answer {:?}\nbut it answers {:?}\nfirst other record, as it must be and as it is: {other:?}\n\
         the room must hold {:?}\nbut holds {:?}",
        logarithms.len(),
        draws.len(),
        case.wrong,
        case.answer.found,
        said.found,
        case.answer.room,
        said.room,
    )
}
