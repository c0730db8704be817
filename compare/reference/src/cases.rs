//! The cases that our program `cases` answers: those of a run, and their answers from the Rust.

use crate::ask::ask;
use crate::case::Case;
use crate::counts::Counts;
use crate::lined::{refused, Asked, Lined};
use crate::{actions, contexts, edges, fixed, formulas, generate, sets};
use std::io;

/// What a kind is called in the counts.
const KINDS: [&str; 21] = [
    "01 attributes",
    "02 price",
    "03 wait",
    "04 name",
    "05 label",
    "06 macro_text",
    "07 from_name",
    "08 from_bits",
    "09 from_list",
    "10 contains",
    "11 set",
    "12 unset",
    "13 len",
    "14 is_empty",
    "15 highest",
    "16 members",
    "17 keep",
    "18 progress increase",
    "19 quality increase",
    "20 durability cost",
    "21 CraftContext::new",
];

/// The fixed list, the edges, and `count` random cases of each kind.
pub fn compare(seed: u64, count: u64, program: &[&str]) -> io::Result<()> {
    let cases = fixed::cases().into_iter().chain(edges::cases());
    let cases = cases.chain(generate::cases(seed, count)).map(Asked::new);
    let mut counts = Counts::default();
    let asked = ask(program, cases, |case| count_case(&mut counts, case))?;
    print!("{counts}");
    counts.check_places(1);
    println!("compare: {asked} cases equal, seed {seed}");
    Ok(())
}

pub fn count_case(counts: &mut Counts, case: &Asked<Case>) {
    let name = name(&case.what);
    let answer = case.parts().next().expect("a part");
    let (number, value) = refused(answer);
    counts.answered(name, number, value);
    if answer == formulas::OUTSIDE {
        counts.met(&format!("{name}, outside"));
    }
}

fn name(case: &Case) -> &'static str {
    KINDS[usize::from(case.kind) - 1]
}

impl Lined for Case {
    fn line(&self) -> Vec<u8> {
        self.line()
    }

    fn answer(&self) -> String {
        match self.kind {
            1..=7 => actions::answer(self),
            8..=17 => sets::answer(self),
            18..=20 => formulas::answer(self),
            _ => contexts::answer(self),
        }
    }

    fn part(&self, _: usize) -> String {
        name(self).to_string()
    }
}
