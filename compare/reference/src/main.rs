//! The Rust's side of the comparison. `WHAT SEED COUNT PROGRAM..` has our program, the command PROGRAM.., answer a fixed
//! list and COUNT random ones of WHAT, or COUNT bad inputs, and holds each answer to the Rust's or to its refusal.
//! `thresholds SEED COUNT` prints what the Rust's search answers by its threshold.
//! `sample PROGRAM FILE` writes the fixed list of a program of ours as its `stdin`, or the Rust's answers as its `stdout`.

mod actions;
mod ask;
mod bad;
mod case;
mod cases;
mod contexts;
mod counts;
mod crafts;
mod displays;
mod edges;
mod fixed;
mod formulas;
mod generate;
mod limits;
mod lined;
mod outside;
mod places;
mod random;
mod refusal;
mod replays;
mod room;
mod searches;
mod sets;
mod states;
mod texts;
mod thresholds;
mod trees;

use lined::Lined;
use std::io::{self, Write};

const COMMANDS: &str = "sample PROGRAM FILE | thresholds SEED COUNT | WHAT SEED COUNT PROGRAM.., \
    where WHAT is cases, states, displays, replays, texts, trees or searches, or bad-cases, bad-crafts, bad-texts or bad-trees";

fn main() -> io::Result<()> {
    let arguments: Vec<String> = std::env::args().skip(1).collect();
    let words: Vec<&str> = arguments.iter().map(String::as_str).collect();
    match words[..] {
        ["sample", "cases", file] => write_sample(file, fixed::cases().into_iter()),
        ["sample", "states", file] => write_sample(file, crafts::fixed()),
        ["thresholds", seed, count] => {
            thresholds::print(number(seed), number(count));
            Ok(())
        }
        [what, seed, count, ref program @ ..] if !program.is_empty() => {
            compare(what, number(seed), number(count), program)
        }
        _ => fail_usage(),
    }
}

fn compare(what: &str, seed: u64, count: u64, program: &[&str]) -> io::Result<()> {
    match what {
        "cases" => cases::compare(seed, count, program),
        "states" => crafts::compare_states(seed, count, program),
        "displays" => crafts::compare_displays(seed, count, program),
        "replays" => crafts::compare_replays(seed, count, program),
        "texts" => texts::compare(seed, count, program),
        "trees" => trees::compare(seed, count, program),
        "searches" => searches::compare(seed, count, program),
        "bad-cases" => bad::compare_cases(seed, count, program),
        "bad-crafts" => bad::compare_crafts(seed, count, program),
        "bad-texts" => bad::compare_texts(seed, count, program),
        "bad-trees" => bad::compare_trees(seed, count, program),
        _ => fail_usage(),
    }
}

fn number(word: &str) -> u64 {
    word.parse().unwrap_or_else(|_| fail(format!("{word} is no number")))
}

fn fail_usage() -> ! {
    fail(format!("one of: {COMMANDS}"))
}

fn fail(why: String) -> ! {
    eprintln!("reference: {why}");
    std::process::exit(2)
}

fn write_sample<T: Lined>(file: &str, sample: impl Iterator<Item = T>) -> io::Result<()> {
    let mut out = io::BufWriter::new(io::stdout());
    for one in sample {
        match file {
            "stdin" => out.write_all(&one.line())?,
            "stdout" => writeln!(out, "{}", one.answer())?,
            _ => fail_usage(),
        }
    }
    out.flush()
}
